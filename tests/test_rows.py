"""The sessions of examples/rows/NAME.rows (rows.py has their notation), run in batches of 1, 3 and 64 by the program as each of
two compilers built it, and by the second program. examples/rows/counts says how many sessions and expectations each file has, so
that none is lost; one that is left out is seen by that. Of the expectations a hundred, drawn by a number, are changed, one at a
time, and each must be noticed."""
import random
import re

import pytest
import rows
from samples import BUILT, EXAMPLES, ROOT

COUNTS = {name: (int(sessions), int(expected)) for name, sessions, expected in re.findall(
    r"^(\w+): (\d+) sessions, (\d+) expectations$", (EXAMPLES / "rows" / "counts").read_text(), re.M)}  # fmt: skip
TEXTS = {path.stem: path.read_text() for path in sorted((EXAMPLES / "rows").glob("*.rows"))}
SESSIONS = {f"{name}:{session.title}": session for name, text in TEXTS.items() for session in rows.read_rows(text)}
# By which number how many expectations are drawn; a session whose input is longer than this takes a program long, and it isn't
# drawn.
SEED, DRAWN, LONGEST = 7, 100, 100_000
# The program as LLVM and as Rattle's own compiler built it. `rt ci` builds both, the second alone `rt run --backend rattle`.
PROGRAMS = {"llvm": BUILT, "rattle": BUILT.with_name("dvbemu.by-rattle")}


def is_fresh(program):
    """Whether a program is there, and no code and no definition is newer, as ./dvbemu looks at its own."""
    paths = (path for part in ("src", "specs") for path in ROOT.glob(f"crates/*/{part}/**/*") if path.is_file())
    return program.exists() and max(path.stat().st_mtime for path in paths) <= program.stat().st_mtime


@pytest.fixture(scope="module", params=PROGRAMS)
def compiled_by(request, program):
    """The program as a compiler built it."""
    if request.param == "rattle" and not is_fresh(PROGRAMS["rattle"]):
        pytest.skip("the program by Rattle's own compiler isn't built (rt run --backend rattle)")
    return PROGRAMS[request.param] if request.param == "rattle" else program


@pytest.mark.parametrize("name", SESSIONS)
def test_session(compiled_by, name):
    assert rows.wrong_in(compiled_by, SESSIONS[name]) == []


# ------ what is lost, and what is wrong


def left_out(text):
    """The text of a file without one of its expectations, and without one of its sessions."""
    draw, lines, parts = random.Random(SEED), text.split("\n"), text.split("\nsession ")
    place = draw.choice([place for place, line in enumerate(lines) if rows.expects(line)])
    part = draw.randrange(len(parts))
    return "\n".join(lines[:place] + lines[place + 1 :]), "\nsession ".join(parts[:part] + parts[part + 1 :])


def test_files():
    assert COUNTS.keys() == TEXTS.keys()


@pytest.mark.parametrize("name", TEXTS)
def test_counts(name):
    assert rows.count_of(TEXTS[name]) == COUNTS[name]
    assert COUNTS[name] not in map(rows.count_of, left_out(TEXTS[name]))


@pytest.mark.parametrize("name", TEXTS)
def test_titles(name):
    """They differ, and are a word each."""
    titles = [session.title for session in rows.read_rows(TEXTS[name])]
    assert len(set(titles)) == len(titles) and " " not in "".join(titles)


def candidates():
    """The lines that may be changed, by what they expect: each with its session and its place in it."""
    found = {}
    for session in SESSIONS.values():
        for place, (_, line) in enumerate(session.lines):
            if len(session.input) <= LONGEST and rows.expects(line):
                kind = "reply" if " = " in line and line[0] == "c" else line.split(" ")[0]
                found.setdefault(kind, []).append((session, place))
    return [found[kind] for kind in sorted(found)]


def changed(line, draw):
    """A line that expects something else: another digit, or a letter more."""
    front, sign, text = line.partition(" = ") if line[0] == "c" and " = " in line else line.partition(" ")
    places = [place for place, letter in enumerate(text) if letter.isdigit()]
    if not places:
        return f"{front}{sign or ' '}{text}x"
    place = draw.choice(places)
    return front + sign + text[:place] + ("1" if text[place] != "1" else "2") + text[place + 1 :]


def falsified():
    """Sessions with a wrong expectation each, by what was changed in them."""
    draw, kinds = random.Random(SEED), candidates()
    for count in range(DRAWN):
        session, place = draw.choice(kinds[count % len(kinds)])
        number, line = session.lines[place]
        lines = [*session.lines[:place], (number, changed(line, draw)), *session.lines[place + 1 :]]
        yield pytest.param(rows.read_session(session.title, lines), id=f"{session.title}:{number}")


@pytest.mark.parametrize("session", falsified())
def test_wrong_expectation_is_noticed(program, session):
    assert rows.wrong_in(program, session)
