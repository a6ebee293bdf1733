"""The crates of the repository, as crates.txt and the page of each tell of them."""
import itertools
import re

from samples import ROOT


def crate_lines():
    """The crates, each with the libraries that it uses."""
    text = (ROOT / "crates.txt").read_text(encoding="utf-8")
    return {name: used.split() for name, used in re.findall(r"^(\w+)[^:#\n]*:([^#\n]*)", text, re.M)}


def page_of(crate):
    """A crate's page, the text behind `//!` at the head of its root file."""
    source = ROOT / "crates" / crate / "src"
    root = next(path for path in (source / "lib.rt", source / "main.rt") if path.exists())
    lines = root.read_text(encoding="utf-8").splitlines()
    return " ".join(line[3:].strip() for line in itertools.takewhile(lambda line: line.startswith("//!"), lines))


def first_line(crate):
    """The first sentence of a crate's page."""
    return re.match(r".*?\.(?= |$)", page_of(crate))[0]
