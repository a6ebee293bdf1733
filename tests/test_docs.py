"""Each place that the documents name: docs/*.md and the other pages of the repository, and the pages of the crates.

A place stands between backticks: `CRATE/PATH#WORD`, a path in the folder of a crate, or a file alone,
`CRATE/must-fail/NAME.edit`, `CRATE/wrong-bodies/NAME.edit` or one of the folders beside crates/, as `examples/...`. The file has
to be there, and the word has to stand in it, not as a part of a longer word; of a file of rows it is the title of a session, or
what titles begin with. On a crate's page a path, between backticks or not, is one of its own folder, and a name between backticks
has to stand in its src/ or specs/ beside the page.
"""
import glob
import os
import re
import subprocess

import pytest
from conftest import ROOT
from crates import crate_lines, page_of

TOP = (".ci/", "bench/", "debian/", "docs/", "examples/", "packaging/", "preload/", "python/", "tests/")
BELOW = "|".join(map(re.escape, TOP))
PLACE = re.compile(rf"([\w./-]+)#([^\s#]+)|\w+/(?:must-fail|wrong-bodies)/[\w./-]+\.edit|(?:{BELOW})[\w./-]*")
PAGES = "docs/*.md", "README.md", "CONTRIBUTING.md", "*/README.md"
DOCUMENTS = sorted(path.relative_to(ROOT).as_posix() for pages in PAGES for path in ROOT.glob(pages))
# Where a rule stands: the four lines under it, with what the places of each look like.
STANDS = {"Defined": r"/specs/.*#", "Done by": r"/src/.*#", "Shown by": "", "Must fail": r"/(?:must-fail|wrong-bodies)/"}
CRATES = crate_lines()
# Where the wrong bodies of a crate stand.
BODIES = "must-fail", "wrong-bodies"
# The first pages are short: these have at most so many lines.
LENGTHS = {"README.md": 120, "docs/PROVED.md": 90}


def text_of(path):
    """The text of a file of the repository."""
    return (ROOT / path).read_text(encoding="utf-8")


def written(*words):
    """What a command of docs/ prints."""
    return subprocess.run([ROOT / "docs" / words[0], *words[1:]], stdout=subprocess.PIPE, text=True, check=True).stdout


def places_in(path):
    """The places that a document names, each with its line. Blocks of code are passed over."""
    in_code = False
    for number, line in enumerate(text_of(path).splitlines(), 1):
        if line.lstrip().startswith("```"):
            in_code = not in_code
        elif not in_code:
            for span in re.findall(r"`([^`\s]+)`", line):
                if place := PLACE.fullmatch(span):
                    yield number, place[1] or span, place[2]


def fault_of(path, word=None):
    """What is wrong with a place, or None."""
    whole = ROOT / path if path.startswith(TOP) else ROOT / "crates" / path
    if not whole.exists():
        return "isn't there"
    if word is None:
        return None
    if not whole.is_file():
        return "is no file"
    pattern = rf"^session {re.escape(word)}(?=-|$)" if path.endswith(".rows") else rf"(?<!\w){re.escape(word)}(?!\w)"
    return None if re.search(pattern, text_of(whole), re.M) else f"hasn't the word {word}"


@pytest.mark.parametrize("page", LENGTHS)
def test_length(page):
    assert len(text_of(page).splitlines()) <= LENGTHS[page]


@pytest.mark.parametrize("document", DOCUMENTS)
def test_places(tried, document):
    faults = [(f"{document}:{line}", path, fault_of(path, word)) for line, path, word in tried(places_in(document))]
    assert [fault for fault in faults if fault[2]] == []


@pytest.mark.parametrize("page", ["docs/BEHAVIOUR.md", "docs/MADE.md"])
def test_rules(tried, page):
    """Where each rule stands: four lines under it, together and in this order, each with places of its kind, or `-`."""
    lines = text_of(page).split("\n")
    firsts = [number for number, line in enumerate(lines) if line.startswith("- Defined:")]
    labels = [line for line in lines if line.startswith("- ") and line[2:].split(":")[0] in STANDS]
    assert firsts and len(labels) == len(STANDS) * len(firsts)
    for first, label, line in tried((first, label, line) for first in firsts for label, line in zip(STANDS, lines[first:])):
        assert re.fullmatch(rf"- {label}: (?:-|`[^`]+`(?:, `[^`]+`)*)", line), first + 1
        assert all(re.search(STANDS[label], place) for place in re.findall(r"`([^`]+)`", line)), first + 1


def headings_of(path):
    """The headings of a document as a link names them."""
    return [re.sub(r"[^\w -]", "", heading.lower()).replace(" ", "-") for heading in re.findall(r"^#+ (.*)", text_of(path), re.M)]


@pytest.mark.parametrize("document", DOCUMENTS)
def test_links(tried, document):
    """The links of a document to others and to their headings."""
    for target, heading in tried(re.findall(r"\]\((?!https?:)([^)#]*)#?([^)]*)\)", text_of(document))):
        there = os.path.normpath(os.path.join(os.path.dirname(document), target)) if target else document
        assert (ROOT / there).exists() and (not heading or heading in headings_of(there)), (target, heading)


def test_packages():
    """The packages that documents name are of the version in VERSION."""
    versions = [version for document in DOCUMENTS for version in re.findall(r"dvbemu[_-](\d+(?:\.\d+)*)", text_of(document))]
    assert set(versions) == {text_of("VERSION").split()[0]}


@pytest.mark.parametrize("words, head, foot", [(["floors"], "```floors\n", "```\n"), (["floors", "--table"], "\n", "\n")])
def test_drawings(words, head, foot):
    """The drawing and the table of crates in docs/ARCHITECTURE.md are those that docs/floors prints."""
    assert f"{head}{written(*words)}{foot}" in text_of("docs/ARCHITECTURE.md")


def test_headline():
    """The definitions that the clause of the top calls rests on, as docs/rests prints them: some, and none of a folder Inside."""
    told = written("rests")
    assert "emu_top/Serves" in told
    assert [line for line in told.splitlines()[:-1] if "Inside" in line.split(":")[0]] == []


# ------ the crates


def files_of(crate, *parts):
    """The texts of some folders of a crate."""
    return [path for part in parts for path in sorted((ROOT / "crates" / crate / part).rglob("*.*t"))]


def fault_on_page(crate, span, text):
    """What is wrong with what a crate's page names, or None. A file of src/ may be named as it is from there."""
    named = [span] if PLACE.fullmatch(span) else []
    if named or re.fullmatch(r"\w+/[\w/.-]*", span):
        paths = *named, f"{crate}/{span}", f"{crate}/src/{span}", f"{crate}/src/{span}.rt"
        return None if None in map(fault_of, paths) else "isn't there"
    words = span.split("::") if re.fullmatch(r"[A-Za-z]\w*(::\w+)*", span) else []
    missing = [word for word in words if word not in CRATES and not re.search(rf"(?<!\w){word}(?!\w)", text)]
    return "stands nowhere in its src/ and specs/" if missing else None


@pytest.mark.parametrize("crate", CRATES)
def test_page(tried, crate):
    """What a crate's page names is there, and a crate of tests that it names is one above it."""
    text = re.sub(r"^//!.*", "", "".join(map(text_of, files_of(crate, "src", "specs"))), flags=re.M)
    for span in tried(re.findall(r"`[^`]+`|(?<![`\w])(?:specs|proofs|src)/[\w/.]*\w", page_of(crate))):
        span = span.strip("`")
        assert fault_on_page(crate, span, text) is None, span
        assert not re.search(r"^tests_|_tests$", span) or crate in [span, *CRATES.get(span, [])], span


def definition_rows():
    """The rows of the tables of docs/DEFINITIONS.md: the files of specs/ and the words. A file without a crate is of the one
    before it, or of the crate in the heading."""
    for part in text_of("docs/DEFINITIONS.md").split("\n## ")[1:]:
        heading, *lines = part.split("\n")
        first = re.search(r"`(\w+)`", heading)
        for row in filter(None, (re.match(r"\| (`[\w/]+`(?:, `[\w/]+`)*) \| (.*?) \|", line) for line in lines)):
            files, crate = [], first[1]
            for name in re.findall(r"`([\w/]+)`", row[1]):
                crate, _, stem = name.rpartition("/") if "/" in name else (crate, "", name)
                files.append(f"{crate}/specs/{stem}.antt")
            yield files, re.findall(r"`(\w+)`", row[2])


def test_definitions(tried):
    """Each word of these tables stands in one of its row's files."""
    for files, word in tried((files, word) for files, words in definition_rows() for word in words or [None]):
        assert None in [fault_of(path, word) for path in files], (files, word)


def fault_of_body(path):
    """Why a wrong body doesn't fit its crate, or None: what goes has to stand once in the file that is named."""
    crate, name, old, texts = os.path.dirname(os.path.dirname(path)), "", "", {}
    lines = [line.partition(": ") for line in text_of(path).splitlines() if re.match("(file|old|new): ", line)]
    for kind, _, rest in lines:
        if kind == "file":
            name = rest
            texts.setdefault(rest, text_of(os.path.join(crate, rest)))
        old = rest if kind == "old" else old
        if kind == "old" and texts[name].count(old) != 1:
            return f"what it changes stands {texts[name].count(old)} times in {name}"
        if kind == "new":
            texts[name] = texts[name].replace(old, rest)
    return None if "new" in [kind for kind, _, _ in lines] else "changes nothing"


def test_wrong_bodies(tried):
    """Each wrong body, those that the gate tries and the others, can be put into its crate; no two of a crate have one name."""
    paths = [path for folder in BODIES for path in glob.glob(os.path.join(glob.escape(str(ROOT)), "crates", "*", folder, "*"))]
    bodies = [re.sub(f"/({'|'.join(BODIES)})/", " ", path) for path in paths]
    assert len(set(bodies)) == len(bodies)
    for path in tried(paths):
        assert path.endswith(".edit") and fault_of_body(path) is None, path


def words_in(path, module, part):
    """The words that the lines of a file take of a module: as they are named here (-1) or there (0)."""
    for words in re.findall(rf"^(?:unfoldable )?(?:pub )?(?:ghost )?use {module}\.{{([^{{}}]*)}};?$", text_of(path), re.M):
        yield from (word.strip().split(" as ")[part] for word in words.split(","))


@pytest.mark.parametrize("path", sorted(str(path.relative_to(ROOT)) for path in ROOT.glob("crates/*/*/Imports.antt")))
def test_imports(path):
    """A crate's proofs/Imports.antt has the words of others that its proofs use, its specs/Imports.antt those that the crate
    uses, and each once."""
    _, crate, kind, _ = path.split("/")
    files = files_of(crate, *(["proofs"] if kind == "proofs" else ["specs", "src", "proofs"]))
    used = {word for file in files for word in words_in(file, rf"Rattle\.{crate}\.{kind}\.Imports", 0)}
    assert sorted(words_in(path, r"\S+?", -1)) == sorted(used)
