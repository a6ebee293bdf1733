"""The own calls where more is watched or less is there: under valgrind, by gcc's sanitizers, in namespaces of processes of their
own, and behind preloads of others."""
from __future__ import annotations

import os
import shlex
import tempfile

import pytest
from conftest import ROOT, needs
from dvbemu.build import FLAGS, PARTS
from serving import SERVED, SLOW, at_once, ran

# What valgrind keeps for itself or does otherwise (vfork is a fork there), and pointers that are bad on purpose; what a sanitizer
# finds in Debian's dd, and stacks that are too small for one; that a program that leaks is as ever; and that children are killed
# some times, which takes long here.
NOT_BY_VALGRIND = ("-numbers_of_the_preload", "-few_descriptors", "-a_high_number", "-by_io_uring", "-by_vfork", "-bad_pointers",
                   "-another_process_sees_the_lock")  # fmt: skip
NOT_OVER_SANITIZERS, FEW = ("-by_the_shell", "-small_stacks"), "ROUNDS=10"
SANITIZED = "ASAN_OPTIONS=verify_asan_link_order=0:detect_leaks=0"
ADDRESSES, BOTH = ["-g", "-fsanitize=address"], ["-g", "-fsanitize=address,undefined", "-fno-sanitize-recover=undefined"]
LIBRARY = ["-O2", "-D_GNU_SOURCE", "-Wall", "-Wextra", "-shared", "-fPIC"]
# A preload of somebody else, whose stat is by its stat64, as fakeroot's calls are by others.
OTHER = """#include <dlfcn.h>
#include <sys/stat.h>
int stat(const char *path, struct stat *told) { return stat64(path, (struct stat64 *)told); }
int stat64(const char *path, struct stat64 *told) { return ((__typeof__(&stat64))dlsym(RTLD_NEXT, "stat64"))(path, told); }
"""
PLACE = os.path.realpath(tempfile.gettempdir())
NAMESPACES = {
    "unshare": ["unshare", "-rpf", "--mount-proc"],
    "bwrap": ["bwrap", "--unshare-all", "--ro-bind", "/", "/", "--dev", "/dev", "--proc", "/proc", "--bind", PLACE, PLACE],
}
FOUR = 4


def made(*words):
    """Sees that a compiler for C has made something."""
    done = ran(words)
    assert done.returncode == 0, done.stdout


def sources(folder):
    """The files in C of a folder."""
    return sorted(map(str, (ROOT / folder).glob("*.c")))


@pytest.fixture(scope="module")
def sanitizers():
    """Where gcc has the libraries of its sanitizers."""
    needs("gcc")
    paths = [ran(["gcc", f"-print-file-name={name}"]).stdout.strip() for name in ("libasan.so", "libubsan.so")]
    if not all(map(os.path.isabs, paths)):
        pytest.skip("gcc's sanitizers aren't there")
    return list(map(os.path.realpath, paths))


def test_valgrind(served):
    """valgrind finds no fault in the preload, whatever is called."""
    needs("valgrind")
    served.passed("env", FEW, "valgrind", "-q", "--error-exitcode=99", served.cases, *NOT_BY_VALGRIND, keep="none", rate=SLOW)


@pytest.mark.usefixtures("sanitizers")
def test_program_with_a_sanitizer(served):
    """It runs, also where it forks while a thread of it begins."""
    cases, late = served.path("cases"), served.path("late.so")
    made("gcc", *ADDRESSES, *sources("preload/cases"), "-lpthread", "-o", cases)
    served.passed("env", SANITIZED, FEW, cases, "-small_stacks", keep="none", rate=SLOW)
    made("gcc", *LIBRARY, SERVED / "late.c", "-o", late, "-ldl")
    script = f'LD_PRELOAD="$LD_PRELOAD:{late}" exec "$0" in_a_daemon'
    assert "late\n" in served.passed("env", SANITIZED, "sh", "-c", script, cases, keep="none", rate=SLOW)


def test_preload_with_sanitizers(served, sanitizers):
    """They find no fault in the preload that is built with them."""
    preload = served.path("preload.so")
    made("gcc", *FLAGS, *BOTH, *(ROOT / "preload" / f"{part}.c" for part in PARTS), "-ldl", "-o", preload)
    loaded = f"LD_PRELOAD={':'.join([*sanitizers, str(preload)])}"
    served.passed("env", SANITIZED, FEW, loaded, served.cases, *NOT_OVER_SANITIZERS, keep="none", rate=SLOW)


@pytest.mark.parametrize("name", NAMESPACES)
def test_namespaces(served, name):
    """Programs that count their processes anew, four at once, have a line each."""
    needs(name)
    if ran([*NAMESPACES[name], "true"]).returncode:
        pytest.skip(f"{name} may not")
    served.by_script(at_once(FOUR, f'{shlex.join(NAMESPACES[name])} "$0" +beside'), count=FOUR)
    served.is_right()


def test_another_preload(served):
    """Another preload in front, which leads calls to one another."""
    other = served.path("other.so")
    made("cc", *LIBRARY, served.put("other.c", OTHER), "-o", other, "-ldl")
    served.by_script('LD_PRELOAD="$1:$LD_PRELOAD" exec "$0" stat_of_a_device', other, keep="none", rate=SLOW)


def test_fakeroot(served):
    needs("fakeroot")
    served.passed("fakeroot", served.cases, "stat_of_a_device", "sections", keep="none", rate=SLOW)
