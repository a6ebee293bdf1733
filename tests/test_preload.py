"""preload/: its Makefile builds as `dvbemu serve` does, each call is taken over by all of its names."""
import re
import shutil
import subprocess

import pytest

from conftest import ROOT
from dvbemu import build

FOLDER = ROOT / "preload"
# The calls that have a twin NAME64, such that have one with a size behind the arguments, and other names.
TWINS = "open openat lseek pread preadv pwrite sendfile fcntl fopen stat lstat fstat fstatat scandir glob"
OLD_TWINS = "__xstat __lxstat __fxstat __fxstatat"
CHECKED = "read pread pread64 poll ppoll readlink readlinkat realpath getcwd"
OTHERS = "__open_2 __open64_2 __openat_2 __openat64_2 preadv64v2 fileno_unlocked eaccess _Exit canonicalize_file_name ioctl"


def test_make(tmp_path):
    if not shutil.which("make") or not shutil.which("cc"):
        pytest.skip("no make or no cc")
    shutil.copytree(FOLDER, tmp_path / "preload", ignore=shutil.ignore_patterns("out"))
    (tmp_path / "python").symlink_to(ROOT / "python")
    made = subprocess.run(["make", "out/preload.so"], cwd=tmp_path / "preload", capture_output=True, text=True, check=True)
    assert made.stderr == "" and made.stdout.splitlines()[-1].startswith(f"cc {' '.join(build.FLAGS)} ")
    assert {word.removesuffix(".c") for word in made.stdout.split() if word.endswith(".c")} == set(build.PARTS)
    words = ["nm", "-D", "--defined-only", tmp_path / "preload/out/preload.so"]
    symbols = set(re.findall(r" [TW] (\S+)", subprocess.run(words, stdout=subprocess.PIPE, text=True, check=True).stdout))
    wanted = {f"{name}{end}" for name in f"{TWINS} {OLD_TWINS}".split() for end in ("", "64")}
    assert wanted | {f"__{name}_chk" for name in CHECKED.split()} | set(OTHERS.split()) <= symbols
