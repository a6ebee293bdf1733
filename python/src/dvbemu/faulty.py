"""What a script's fault may be about, for those who have written it: behind the two lines of the program a third one. And what is likely a
mistake, though it is none by the rules: what follows the line `stream` where packets should."""
from __future__ import annotations

import codecs
import re
from typing import TYPE_CHECKING

from . import inputs
from . import tool

if TYPE_CHECKING:
    from typing import Iterable, Sequence

PACKET = "a packet begins with G, 0x47: is the line `stream` missing in front of it?"
REPORT = b"dvbemu 1\n"
LINE = re.compile(rb"(c[0-7] [a-z]+ \w+|(feed|tick) \d+)[^\n]*(?=\n)")


def usage(word: str, names: Iterable[str]) -> str:
    """How a word is called with these files behind its script; `check` has the report in front."""
    return " ".join(["dvbemu", word, *(["REPORT"] if word == "check" else []), "SCRIPT", *names])


def words_of(names: Sequence[str], plain: str) -> str:
    """The line that names the translator."""
    script = names[0] if names[0] != "-" else "SCRIPT"
    return f"`dvbemu words {script}` translates it to '{plain}'"


def of_file(script: bytes, names: Sequence[str], word: str) -> str:
    """The hint for a file that isn't a script."""
    if script.startswith(b"G"):
        return f"{names[0]}: a script comes first, and then the streams: {usage(word, names[:1])}"
    if script.startswith(REPORT) and word == "check":
        return f"{names[0]}: this is a report, which comes first: " + " ".join(["dvbemu", word, names[0], "SCRIPT", *names[1:]])
    if script.startswith(REPORT):
        return f"{names[0]}: this is a report, not a script: `dvbemu explain {names[0]}` explains it"
    return ""


def no_stream(names: Sequence[str], word: str) -> str:
    """The hint for a script without the line `stream` and without a stream."""
    if len(names) > 1 or names[0] == "-":
        return ""
    script = usage(word, ()).replace("SCRIPT", names[0])
    return f"for a stream from a file: {script} STREAM; for one from standard input: {script} -"


def pause(words: list[str]) -> str:
    """The hint for a word that waits in a shell."""
    if words[0] not in ("sleep", "usleep", "wait", "delay"):
        return ""
    found = re.fullmatch(r"sleep (\d{1,6}(?:\.\d{1,3})?)", " ".join(words))
    return f"time passes by `tick {round(float(found[1]) * 1000)}`, in milliseconds" if found else "time passes by `tick N`, in milliseconds"


def short_section(words: list[str]) -> str:
    """The hint for a line `section` with a filter byte in the place of a number."""
    byte = next((place for place, word in enumerate(words[3:6]) if "=" in word), None)  # that stands for PID, TIMEOUT or FLAGS
    if words[1:2] != ["section"] or byte is None:
        return ""
    missing = ("numbers are", "TIMEOUT and FLAGS are", "TIMEOUT is")[byte]
    return f"the line is cK section T PID TIMEOUT FLAGS BYTE..; it seems that {missing} missing"


def nearest(kind: str, words: list[str], commands: Iterable[str]) -> str:
    """The word that is like the wrong one, where one is."""
    known, word = {"client": (["feed", "tick", "stream"], words[0]), "command": (commands, "".join(words[1:2]))}.get(kind, ((), ""))
    return tool.nearest(word, known).removeprefix("; ")


def of_line(kind: str, line: bytes, number: int, names: Sequence[str]) -> str:
    """The hint for a line."""
    from . import naming  # pylint: disable=import-outside-toplevel
    if line.startswith(b"G") and len(line) > 1:
        return PACKET
    text = line.decode("utf-8", "surrogateescape")
    words = text.split(" ")
    try:
        plain = naming.plain_line(text.removeprefix("" if number > 1 else naming.MARK))
    except naming.WordError:
        plain = text
    if plain != text and is_plain(plain):
        return words_of(names, plain)
    return short_section(words) or pause(words) or nearest(kind, words, naming.COMMANDS)


def hint(stderr: str, script: bytes, names: Sequence[str], word: str) -> str:
    """What is told behind a fault of a script in one of these files, of which this is the beginning, to this word; nothing where no more is
    known."""
    found = re.match(r"dvbemu: script line (\d+): (\w+)\n", stderr)
    more, number, lines = of_file(script, names, word), int(found[1]) if found else 0, script.split(b"\n")
    if found and not more and found[2] == "nostream":
        more = no_stream(names, word)
    elif found and not more and 0 < number <= len(lines):
        more = of_line(found[2], lines[number - 1], number, names)
    return f"  {more}\n" if more else ""


def is_plain(line: str) -> bool:
    """Whether a line looks like one that the program reads: whole ones of a client or of the order."""
    return re.fullmatch(r"stream|(feed|tick) \d+|c[0-7] [a-z]+ (n\d+|h\d+|dvr)( [\x21-\x7e]+)*", line) is not None


def is_text(beginning: bytes) -> bool:
    """Whether a file that begins so is a text, of lines."""
    try:
        text = codecs.utf_8_decode(beginning, "strict", False)[0]
    except UnicodeDecodeError:
        return False
    return "\n" in text and not re.search("[^\t\n\f\r\x20-\x7e\xa0-\U0010ffff]", text)


def warnings(head: bytes, files: Sequence[inputs.Input]) -> str:
    """The lines on what is likely a mistake: a line of a script behind the line `stream`, and a text that is taken for a stream. The files
    are those of `inputs.opened`, of which the first has this beginning."""
    place, warned = inputs.stream_at(head), []
    if place >= 0 and (found := LINE.match(head, place + len(inputs.LINE))):
        line, text = head.count(b"\n", 0, found.start()) + 1, found[0].decode(errors="replace")
        warned = [f"{files[0].name}: line {line}, '{text}', follows `stream`, so it is part of the stream, not a call"]
    warned += [f"{file.name}: this is text, not a transport stream" for file in files[1:] if is_text(file.beginning)]
    return "".join(f"dvbemu: {line}\n" for line in warned)
