#!/usr/bin/env python3
"""Whether the oracle was written from the rules as they stand, which test_rules.py looks at.

    rules.py --accept    writes the checksums anew

Above the code for a section of docs/BEHAVIOUR.md or docs/MADE.md these programs have a line `# RULES: CHECKSUM HEADING`. The
checksum is that of the section's text without the lines that say where a rule stands, however the text is wrapped. Where a
section has changed, read it, follow it in the code under that line, and then accept it.
"""
import hashlib
import re
import sys
from pathlib import Path

ROOT = Path(__file__).resolve().parents[2]
DOCUMENTS = "BEHAVIOUR.md", "MADE.md"
PROGRAMS = [f"tests/{name}.py" for name in ("oracle/second", "oracle/judge", "oracle/reports", "oracle/made", "test_drawn")]
LINE = re.compile(r"^( *# RULES: )([0-9a-f]{8}) (.+)$", re.M)
# The lines under a rule that say where it stands, with the line above them that names it, and those that go on with one of them.
PLACES = re.compile(r"(?:^[^\n]*:\n)?(?:^- (?:Defined|Done by|Shown by|Must fail): .*\n(?:^  .*\n)*)+", re.M)


def sections():
    """The checksum of each section's text, by its heading. A document's first lines are no rule."""
    found = {}
    for name in DOCUMENTS:
        for part in re.split(r"^##+ ", (ROOT / "docs" / name).read_text(encoding="utf-8"), flags=re.M)[1:]:
            heading, _, text = part.partition("\n")
            if words := " ".join(PLACES.sub("", text + "\n").split()):
                found[heading] = hashlib.sha256(words.encode()).hexdigest()[:8]
    return found


def named():
    """The program, the heading and the checksum of each line."""
    found = {program: LINE.findall((ROOT / program).read_text()) for program in PROGRAMS}
    return [(program, heading, checksum) for program in PROGRAMS for _, checksum, heading in found[program]]


def accept():
    """Writes the checksum of each section that is named anew."""
    wanted = sections()
    for program in PROGRAMS:
        path = ROOT / program
        path.write_text(LINE.sub(lambda line: f"{line[1]}{wanted.get(line[3], line[2])} {line[3]}", path.read_text()))


if __name__ == "__main__":
    if sys.argv[1:] != ["--accept"]:
        sys.exit("usage: tests/oracle/rules.py --accept")
    accept()
