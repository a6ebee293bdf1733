#!/usr/bin/env python3
"""Writes what is proved of what is installed, and the sums of its files.

    packaging/proof.py [--gate FILE] FOLDER

FOLDER is that of bin, lib and share, without any of this. It gets lib/dvbemu/VERSION, share/doc/dvbemu/PROOF and SHA256SUMS, and
each of its files the time of SOURCE_DATE_EPOCH, or else the commit's. FILE is what a run of .ci/run has written: it has to be a
whole one, without a failure, over the commit that is here, with nothing changed, by the toolchain that VERSION names. Without
FILE PROOF says that no gate is told.
"""
import argparse
import hashlib
import os
import re
import subprocess
import sys
from pathlib import Path

ROOT = Path(__file__).resolve().parent.parent
# The last line of each of the gate's parts.
SUM = re.compile(r"(\d+) passed, (\d+) failed\b.*")
NO_GATE = ["none was told as this was installed (make GATE=FILE)"]


class Refused(Exception):
    """Nothing is written, and why."""


def told(*words):
    """What a command writes, without its last line feed."""
    try:
        ran = subprocess.run(words, cwd=ROOT, capture_output=True, text=True, check=False)
    except OSError as fault:
        raise Refused(f"{words[0]}: {fault.strerror}") from None
    if ran.returncode:
        raise Refused(f"{' '.join(words)}: {ran.stderr.strip()}")
    return ran.stdout.rstrip("\n")


def checks_of_gate():
    """What .ci/run runs behind `rt ci`."""
    return re.findall(r'^echo "== (.*)"$', (ROOT / ".ci" / "run").read_text(), re.M)


def gate_lines(text, commit):
    """The sum of each part of a run of the gate over a commit, a line each. Refused where one tells a failure, or one is
    missing."""
    head, *others = re.split("^== ", text, flags=re.M)
    parts = {"rt ci": head, **dict(part.split("\n", 1) for part in others if "\n" in part)}
    sums = {name: [line for line in part.split("\n") if SUM.fullmatch(line)] for name, part in parts.items()}
    failed = [f"{name}: {line}" for name, lines in sums.items() for line in lines if SUM.fullmatch(line)[2] != "0"]
    if failed:
        raise Refused(f"the gate has failed: {failed[0]}")
    missing = [name for name in ["rt ci", *checks_of_gate()] if not sums.get(name) or sums[name][-1].startswith("0 passed")]
    if missing:
        raise Refused(f"the gate hasn't come to its end: it has no sum of {', '.join(missing)}")
    if f"commit {commit}\n" not in head:
        raise Refused(f"the gate isn't one over the commit {commit}")
    return [f"{name}: {lines[-1]}" for name, lines in sums.items()]


def commit_of_gate(gate, named):
    """The commit that is here, as that of a gate: all of it is committed, and the toolchain is the one that VERSION names."""
    if changed := told("git", "status", "--porcelain"):
        raise Refused(f"not all is committed: {changed.splitlines()[0].strip()}")
    if f"proved with {told('rt', 'version')}" != named:
        raise Refused(f"the toolchain is {told('rt', 'version')}, and VERSION says: {named}")
    commit = told("git", "rev-parse", "HEAD")
    try:
        return commit, gate_lines(Path(gate).read_text(errors="replace"), commit)
    except OSError as fault:
        raise Refused(f"{gate}: {fault.strerror}") from None


def commit_here():
    """The commit that is here, and whether something is changed; nothing where there is no repository."""
    try:
        return told("git", "describe", "--always", "--abbrev=40", "--dirty=, changed", "--exclude=*")
    except Refused:
        return "unknown"


def files_in(folder):
    """The files below a folder, by their names from there, without links."""
    return sorted(str(path.relative_to(folder)) for path in folder.rglob("*") if path.is_file() and not path.is_symlink())


def sign(folder, version, named, commit, lines):
    """Writes the files, and sets the times."""
    library, doc = folder / "lib" / "dvbemu", folder / "share" / "doc" / "dvbemu"
    short = commit[:8] + commit[40:]
    (library / "VERSION").write_text(f"{version} (commit {short})\n{named}\n")
    text = (ROOT / "packaging" / "PROOF").read_text()
    gate = "\n".join(f"    {line}" for line in lines)
    (doc / "PROOF").write_text(text.format(version=version, commit=commit, toolchain=named.removeprefix("proved with "),
                                           gate=gate))
    sums = [f"{hashlib.sha256((folder / name).read_bytes()).hexdigest()}  {name}\n" for name in files_in(folder)]
    (doc / "SHA256SUMS").write_text("".join(sums))
    time = int(os.environ.get("SOURCE_DATE_EPOCH") or told("git", "log", "-1", "--format=%ct"))
    for path in folder.rglob("*"):
        os.utime(path, (time, time), follow_symlinks=False)


def main():
    """Writes them, or says why not."""
    parser = argparse.ArgumentParser(description="Writes what is proved of what is installed, and the sums of its files.")
    parser.add_argument("--gate", metavar="FILE", help="what a run of .ci/run at this commit has written")
    parser.add_argument("folder", metavar="FOLDER", type=Path, help="that of bin, lib and share")
    given = parser.parse_args()
    version, named = (ROOT / "VERSION").read_text().splitlines()[:2]
    try:
        commit, lines = commit_of_gate(given.gate, named) if given.gate else (commit_here(), NO_GATE)
        sign(given.folder, version, named, commit, lines)
    except (Refused, OSError) as why:
        print(f"packaging/proof.py: {why}", file=sys.stderr)
        return 1
    return 0


if __name__ == "__main__":
    sys.exit(main())
