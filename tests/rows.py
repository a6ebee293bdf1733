"""Sessions as rows: the files examples/rows/NAME.rows, which test_rows.py runs over the program and compares.

A file has sessions, one behind the other. Empty lines, and lines that begin with `# `, are passed over.

    session TITLE            begins a session; its title is one word
    run WORDS                the words of a run; several; without them it is `steps` in batches of 1, 3 and 64
    COMMAND = REPLY ; REPLY  a line of the script and the replies to its calls; `32 of passed` is 32 times `passed`; without ` = `
    they
                             aren't compared. Any other line of no word below is one of the input too, also the line `stream`
    P PID COUNTER XX..       a packet: these bytes of payload, and the last of them to its end
    U PID COUNTER XX..       a packet that begins sections: pointer_field 0, these bytes, bytes ff to its end
    bytes XX..               bytes; XX*N is N of them, also in P and U
    times N LINE             N times this line
    > LINE, >- FRONT         the output, line by line; `>-` without a line feed. With one of them the whole output is compared
    has LINE                 the output has this line
    wants STATUS             the line on standard error behind `dvbemu: `; without it the status is Ok
    hint TEXT                the second line of standard error
    at L N, + LINE, answer STATUS   the first run's report with the `+` lines in place of N lines from line L on, and what `check`
    says to
                             it, `ok` for yes; without `at` it is the report as it stands
    expected TEXT            what the second line of that `check` tells behind `expected`; with no TEXT there is no such line

In texts `|` parts pieces, `0*368` is 368 times `0`, `\\0a` is that byte; `|` in front of a line says that it is none of the words
above. By threads replies aren't compared. Beside this, each report of `steps` and `run` that ends with Ok is given to `check`,
which has to say yes, and tests/oracle/second.py has to come to the same status, report and answer; a report of `run` is judged by
tests/oracle/judge.py.
"""
import io
import re
import subprocess
from typing import NamedTuple

from dvbemu import reports
from oracle import judge, second
from samples import asked_of

BATCHES = "steps --batch 1", "steps --batch 3", "steps --batch 64"
# The lines that expect something.
WANTED = "wants", "hint", "has", ">", ">-", "answer", "expected"
# The exit status of each line on standard error, by its first word.
STATUSES = {"ok": 0, "report": 0, "usage": 2, "script": 3, "too": 4, "read": 5, "write": 6, "out": 7}


class Session(NamedTuple):
    """A session: the lines of its file with their numbers; the words of its runs; its input; the rows, each with its line in the
    file, its line of the script, its client and its replies; the other lines that expect something; and the changes of the first
    report."""

    title: str
    lines: list
    runs: list
    input: bytearray
    rows: list
    wanted: list
    changes: list


class Ran(NamedTuple):
    """What a run told: its exit status, the two lines on standard error, and its output."""

    number: int
    status: str
    hint: str
    output: bytes


# ------ reading


def times_of(word):
    """A word and how often it stands there."""
    front, _, count = word.partition("*")
    return (front, int(count)) if count.isdigit() and front else (word, 1)


def bytes_of_text(text):
    """The bytes of a text."""
    pieces = [times_of(piece) for piece in text.split("|")]
    return b"".join((bytes.fromhex(word[1:]) if word.startswith("\\") else word.encode()) * count for word, count in pieces)


def bytes_of_words(words):
    """Bytes of two digits each."""
    return b"".join(bytes.fromhex(word) * count for word, count in map(times_of, words.split()))


def packet(begins, words):
    """A packet, by its PID, its counter and its payload."""
    pid, counter, payload = [*words.split(" ", 2), ""][:3]
    head = bytes([0x47, begins << 6 | int(pid) >> 8, int(pid) & 0xFF, 0x10 | int(counter)])
    made = head + (b"\0" if begins else b"") + bytes_of_words(payload)
    return made.ljust(188, b"\xff" if begins else made[-1:])


def put_line(session, number, line):
    """A line of the input, as often as it says: bytes of the stream, or a line of the script with its replies."""
    count = 1
    if line.startswith("times "):
        _, count, line = line.split(" ", 2)
    word, _, rest = line.partition(" ")
    text, _, replies = line.partition(" = ")
    for _ in range(int(count)):
        if word in ("P", "U"):
            session.input.extend(packet(word == "U", rest))
        elif word == "bytes":
            session.input.extend(bytes_of_words(rest))
        else:
            if replies:
                session.rows.append((number, session.input.count(b"\n") + 1, text[:2], replies.split(" ; ")))
            session.input.extend(bytes_of_text(text) + b"\n")


def read_session(title, lines):
    """A session from its lines."""
    session = Session(title, lines, [], bytearray(), [], [], [])
    for number, line in lines:
        word, _, rest = line.partition(" ")
        if line == "" or word == "#":
            continue
        if word == "run":
            session.runs.append(rest)
        elif word in ("at", "+", "answer", "expected"):
            session.changes.append((number, word, rest))
        elif word in WANTED:
            session.wanted.append((number, word, rest))
        else:
            put_line(session, number, line)
    return session


def read_rows(text):
    """The sessions of a file, by its text."""
    titled = []
    for number, line in enumerate(text.split("\n"), 1):
        if line.startswith("session "):
            titled.append((line[8:], []))
        elif titled:
            titled[-1][1].append((number, line))
    return [read_session(title, lines) for title, lines in titled]


def expects(line):
    """Whether a line of a file expects something."""
    return line.split(" ")[0] in WANTED or re.match(r"c\d .* = .", line) is not None


def count_of(text):
    """How many sessions a file has, and how many lines that expect something."""
    lines = text.split("\n")
    return sum(line.startswith("session ") for line in lines), sum(map(expects, lines))


# ------ running


def run(program, words, given):
    """A run of the program."""
    done = subprocess.run([program, *words.split()], input=given, capture_output=True, check=False)
    first, hint, *_ = done.stderr.decode("latin1").split("\n") + [""]
    return Ran(done.returncode, first.removeprefix("dvbemu: ") or "ok", hint, done.stdout)


def options(words):
    """The batch and what a packet takes up, by the words of a run."""
    named = dict(re.findall(r"--(batch|packet)[ =](\d+)", words))
    return int(named.get("batch", 64)), int(named.get("packet", 188))


def ask(program, words, report, given):
    """What `check` says to a report, asked for packets as in a run."""
    return run(program, "check --packet 204" if options(words)[1] == 204 else "check", asked_of(report, given))


def second_status(words, given, ran):
    """The status that the second program comes to, where the words are `steps` or `run`; or that it comes to another report than
    the program, or that its judge finds something wrong in it."""
    batch, size = options(words)
    try:
        if words.startswith("steps"):
            return "ok" if second.report(given, batch, size).encode() == ran.output else "another report"
        second.read_script(given)
        wrong = judge.judge(given, batch, ran.output, size) if ran.status == "ok" else None
        return f"the judge: {wrong}" if wrong else "ok"
    except second.Fault as fault:
        return f"script line {fault.line}: {fault.kind}"


def replies_wrong(session, report):
    """The replies that differ in a report of `steps`: the line, what is wanted, and what stands there."""
    steps = {outcome.line: range(outcome.first, outcome.after) for outcomes in report.clients for outcome in outcomes}
    replies = {(entry.who, entry.step): entry.reply for entries in report.nodes.values() for entry in entries}
    for number, line, who, rows in session.rows:
        counted = [re.fullmatch(r"(?:(\d+) of )?(.*)", row) for row in rows]
        wanted = [bytes_of_text(row[2]).decode() for row in counted for _ in range(int(row[1] or 1))]
        found = [replies.get((who, step)) for step in steps.get(line, ())]
        if wanted != found:
            yield number, wanted, found


def told_wrong(session, ran):
    """What differs of the other lines that expect something."""
    told = {word for _, word, _ in session.wanted}
    whole = b"".join(bytes_of_text(text) + b"\n" * (word == ">") for _, word, text in session.wanted if word in (">", ">-"))
    if told & {">", ">-"} and whole != ran.output:
        yield next(number for number, word, _ in session.wanted if word in (">", ">-")), whole, ran.output
    if not told & {"wants", "hint"} and ran.status != "ok":
        yield session.lines[0][0], "ok", ran.status
    for number, word, text in session.wanted:
        found = {"wants": ran.status.encode("latin1"), "hint": ran.hint.encode("latin1")}.get(word)
        if found is not None and found != bytes_of_text(text):
            yield number, bytes_of_text(text), found
        if word == "has" and bytes_of_text(text) not in ran.output.split(b"\n"):
            yield number, bytes_of_text(text), ran.output


def run_wrong(program, session, words):
    """What differs in a run."""
    given = bytes(session.input)
    ran = run(program, words, given)
    first = session.lines[0][0]
    yield from told_wrong(session, ran)
    if ran.number != STATUSES.get(ran.status.split(" ")[0]):
        yield first, f"the number of {ran.status}", ran.number
    if words.startswith(("steps", "run")) and ran.status != "usage":
        again = second_status(words, given, ran)
        if again != ran.status:
            yield first, f"the second program: {again}", ran.status
        if words.startswith("steps") and session.rows:
            try:
                yield from replies_wrong(session, reports.read(io.StringIO(ran.output.decode())))
            except reports.ReportError as fault:
                yield first, "a report", fault
        if ran.status == "ok" and (said := ask(program, words, ran.output, given).status) != "ok":
            yield first, "check: ok", said


def answers_wrong(program, session, words):
    """The answers of `check` to changed reports that differ, and those of the judge."""
    given = bytes(session.input)
    lines = run(program, words, given).output.split(b"\n")[:-1] if session.changes else []
    changed, taken, said, judged = [], 0, None, None
    for number, word, text in session.changes:
        if word == "at":
            at, left_out = map(int, text.split())
            changed, taken = changed + lines[taken : at - 1], at - 1 + left_out
        elif word == "+":
            changed.append(text.encode())
        elif word == "expected":
            wanted = f"expected {text}" if text else ""
            # (the judge has no forms of lines, and may tell another line first)
            others = judged[2].decode().split("\n")
            if said.hint != wanted or others[0] == f"dvbemu: {said.status}" and others[1] not in ("", wanted):
                yield number, text, (said.hint, others)
        else:
            report = b"".join(line + b"\n" for line in changed + lines[taken:])
            said = ask(program, words, report, given)
            judged = judge.answer(asked_of(report, given), options(words)[1])
            if said.status != text or judged[1] != (b"yes\n" if text == "ok" else b"no\n"):
                yield number, text, (said.status, judged[1])
            changed, taken = [], 0


def wrong_in(program, session):
    """What differs in a session, by the program: the line of its file, the words, what is wanted and what was found."""
    runs = session.runs or list(BATCHES)
    found = [(number, words, wanted, there) for words in runs for number, wanted, there in run_wrong(program, session, words)]
    return found + [(number, "check", wanted, there) for number, wanted, there in answers_wrong(program, session, runs[0])]
