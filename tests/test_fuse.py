"""`dvbemu serve --fuse`: programs that no preload reaches find the devices, and what a kernel does with descriptors is right;
reports are those of runs; and nothing is left where the server's command, what answers its calls or a program is killed."""
import contextlib
import functools
import glob
import os
import re
import shutil
import signal
import subprocess
import sys

import dvbemu
import pytest
from conftest import EXAMPLES, PROGRAM, ROOT, SERVER, comes, needs

STREAM, TESTS = str(EXAMPLES / "programs" / "scan.ts"), ROOT / "tests"
# The seconds that a command may take, and the user of a system that has no rights.
ENDS, NOBODY = 250, 65534
# How what is written is taken.
TAKEN = {"capture_output": True, "text": True, "errors": "replace", "check": False, "timeout": ENDS}
DEMUX, RECORDER, TUNER = (f"/dev/dvb/adapter0/{name}0" for name in ("demux", "dvr", "frontend"))
# What of preload/cases a regular file or an answer to a kernel can't be: the devices are told as files, which can be spliced; a
# frontend that is one has places; and a read behind a handler with SA_RESTART is EINTR.
NOT_BY_FUSE = ("what_a_device_has_not", "links", "stat_by_its_older_names", "open_from_a_folder", "fstat_of_a_device",
               "stat_of_a_device", "statx_of_a_device", "small_stacks", "at_a_place", "a_signal_begins_a_read_again",
               "many_signals")  # fmt: skip
# The cases of which the report is looked at.
TOLD = "sections", "doubled", "by_edge"
# The ways to link a program, the compiler of each, and its words; the last has no C library, which is seldom there for 32 bits.
BARE = ("-m32", "-ffreestanding", "-nostdlib", "-static", "-fno-pie", "-no-pie", "-fno-stack-protector")
LINKED = {"static": ("gcc", "-static"), "musl": ("musl-gcc",), "32 bits": ("gcc", *BARE)}
# How a section of the PAT begins: its table_id, its length of 21 bytes with the flags, and the transport stream's number.
PAT = b"\x00\xb0\x15\x12\x34"
# A program that asks a demux for the PAT by an ioctl, and reads that and packets of the recorder, which it finds by its name.
GO = """package main
import ("fmt"; "io"; "os"; "path/filepath"; "syscall"; "unsafe")
type filter struct {
	pid uint16
	filter, mask, mode [16]byte
	_ [2]byte
	timeout, flags uint32
}
func main() {
	demux, err := os.OpenFile("/dev/dvb/adapter0/demux0", os.O_RDWR, 0)
	if err != nil { panic(err) }
	pat := filter{flags: 4}
	pat.mask[0] = 0xff
	_, _, errno := syscall.Syscall(syscall.SYS_IOCTL, demux.Fd(), 0x403c6f2b, uintptr(unsafe.Pointer(&pat)))
	section := make([]byte, 4096)
	n, err := demux.Read(section)
	fmt.Printf("%d %d %v %x\\n", errno, n, err, section[:5])
	found, _ := filepath.Glob("/dev/dvb/adapter*/dvr0")
	file, err := os.Open(found[0])
	if err != nil { panic(err) }
	packets := make([]byte, 18800)
	_, err = io.ReadFull(file, packets)
	fmt.Println(packets[0], err)
}
"""
# What takes from a shell what --fuse needs, and what is told then. Who has no rights makes namespaces of users, of which here none may be.
SMALL_DEV = "mkdir d; mount -t tmpfs none d; touch d/null; mount --bind /dev/null d/null; mount --rbind d /dev;"
RIGHTLESS = "setpriv --bounding-set=-all"
MISSING = {
    "/dev/fuse": (SMALL_DEV, "/dev/fuse: No such file or directory"),
    "namespaces": (f"echo 0 > /proc/sys/user/max_user_namespaces; exec {RIGHTLESS}",
                   "user namespaces aren't allowed here: No space left on device"),
}  # fmt: skip
# A program that has a device, and looks at it until that fails.
LOOKS = f"""import os
file = open({DEMUX!r}, "rb", buffering=0)
open("open", "w")
try:
    while True:
        os.listdir("/dev/dvb/adapter0")
except OSError as fault:
    exit(fault.errno)
"""


class Served:
    """A folder in which commands run by FUSE."""

    def __init__(self, folder):
        self.folder, self.report = folder, str(folder / "r")

    def words(self, *command, packets="1500"):
        return [PROGRAM, "serve", "--fuse", "--packets", packets, "--report", self.report, STREAM, "--", *command]

    def run(self, *command, **more):
        """What a command has written, and its status; the report that it leaves is one of a run."""
        done = self.tried(self.words(*command, **more))
        made = subprocess.run([PROGRAM, "session", self.report, STREAM], capture_output=True, check=False)
        assert made.returncode == 0, done.stderr
        told = subprocess.run([PROGRAM, "session", "--report", self.report, STREAM], capture_output=True, check=False)
        verdict = dvbemu.Report.parse(told.stdout).check(made.stdout)
        assert verdict, verdict
        return done

    def tried(self, words, **more):
        """The same of words of any kind, with no look at a report."""
        return subprocess.run(words, cwd=self.folder, **TAKEN, **more)

    def begun(self, *command):
        """A command that has just begun in a session of its own, and says so by a file."""
        there = self.folder / "there"
        words = self.words("sh", "-c", f"touch {there}; exec \"$@\"", "sh", *command)
        child = subprocess.Popen(words, cwd=self.folder, start_new_session=True, stderr=subprocess.PIPE, text=True)
        assert comes(there.exists)
        return child


@functools.cache
def why_no_mount():
    """Why nothing can be tried or mounted, or nothing."""
    if not shutil.which("cc") or not SERVER.exists() or not os.path.isdir("/usr/include/fuse3"):
        return "dvb_serve isn't built, or cc or libfuse's headers aren't there"
    done = subprocess.run([PROGRAM, "serve", "--fuse", "--packets", "3000", "--keep", "none", STREAM, "--", "true"], **TAKEN)
    if "--preload needs no mount" in done.stderr:
        return done.stderr
    assert done.returncode == 0, done.stderr
    return ""


@pytest.fixture(scope="module", autouse=True)
def mounts():
    """Skips all where nothing can be tried or mounted, and says why."""
    if why := why_no_mount():
        pytest.skip(why)


@pytest.fixture
def served(tmp_path):
    return Served(tmp_path)


def processes():
    """The words of each process that has some, by its number."""
    found = {}
    for path in glob.glob("/proc/[0-9]*/cmdline"):
        with contextlib.suppress(OSError), open(path, encoding="utf-8", errors="replace") as file:
            found[int(path.split("/")[2])] = file.read().split("\0")
    return found


def answering(parent):
    """The process that answers the calls of the programs of a wrapper, and the place by which it has mounted."""
    (number, words), = [(number, words) for number, words in processes().items() if words[1:3] == ["serve", str(parent)]]
    return number, words[3]


def headers(folder):
    """A folder with Linux's headers alone, where a compiler has no others that fit."""
    arch = subprocess.run(["gcc", "-print-multiarch"], capture_output=True, text=True, check=True).stdout.strip()
    made = folder / "include"
    made.mkdir()
    for name, path in ("linux", "linux"), ("asm-generic", "asm-generic"), ("asm", f"{arch}/asm"):
        (made / name).symlink_to(f"/usr/include/{path}")
    # (linux/dvb/dmx.h wants it, and nothing of it)
    (made / "time.h").touch()
    return made


@pytest.mark.parametrize("way", LINKED)
def test_a_program_that_no_preload_reaches(served, way):
    """One that is linked statically, of another C library or of 32 bits tunes, is told of that, and reads the PAT."""
    compiler, *words = LINKED[way]
    needs(compiler)
    words = ["-O2", "-Wall", "-Wextra", "-Werror", *words, "-I", str(headers(served.folder))]
    made = served.tried([compiler, *words, "-o", "client", str(TESTS / "fuse_client.c")])
    assert made.returncode == 0, made.stderr
    done = served.run("./client")
    assert (done.returncode, done.stderr) == (0, "")
    assert dvbemu.Report.load(served.report).node("n0").data().startswith(PAT)


def test_go(served):
    """A static program of Go, which calls the kernel by itself, sets a filter, reads the PAT, and reads packets of the recorder."""
    needs("go")
    (served.folder / "main.go").write_text(GO)
    made = served.tried(["go", "build", "-o", "client", "main.go"], env={**os.environ, "CGO_ENABLED": "0"})
    assert made.returncode == 0, made.stderr
    beside = "import fuse_calls, time; one = fuse_calls.all_packets(); time.sleep(5)"
    done = served.run("sh", "-c", f"PYTHONPATH={TESTS} {sys.executable} -c '{beside}' & ./client")
    assert done.stdout == f"0 24 <nil> {PAT.hex()}\n71 <nil>\n"


def test_calls(served):
    """What a kernel does with descriptors, waits, signals and flags is done (tests/fuse_calls.py)."""
    done = served.run(sys.executable, str(TESTS / "fuse_calls.py"))
    assert done.stdout.endswith("right\n"), done.stderr


def test_own_cases(served):
    """Those of preload/cases that ask for nothing which a regular file isn't; and the report of some of them."""
    sources = glob.glob(str(ROOT / "preload" / "cases" / "*.c"))
    assert subprocess.call(["cc", "-O2", "-o", str(served.folder / "cases"), *sources, "-lpthread"]) == 0
    words = served.words("./cases", *(f"-{name}" for name in NOT_BY_FUSE))
    at = words.index("--report")
    words[at:at + 2] = ["--keep", "none"]
    for done, count in (served.tried(words), r"\d\d+"), (served.run("env", "ROUNDS=5", "./cases", *TOLD), str(len(TOLD))):
        assert done.returncode == 0 and re.search(f"^{count} passed, 0 failed$", done.stdout, re.M), done.stdout


def test_what_a_file_is_told(served):
    """The folder can be listed, its files are for anybody, and what isn't there is told so; /sys has the devices."""
    script = f"ls /dev/dvb/*; stat -c '%A %s' {RECORDER}; ls /dev/dvb/adapter1; cat /sys/class/dvb/dvb0.demux0/dev; pwd"
    done = served.run("sh", "-c", script)
    assert done.stdout == f"demux0\ndvr0\nfrontend0\n-rw-rw-rw- 0\n212:4\n{served.folder}\n"
    assert done.stderr.startswith("ls: cannot access '/dev/dvb/adapter1': No such file or directory\n")


def test_two_adapters(served):
    """The second adapter is another server's."""
    script = "ls /dev/dvb; exec 3< /dev/dvb/adapter1/dvr0 4< /dev/dvb/adapter0/dvr0"
    words = served.words("sh", "-c", script)
    words[2:2] = ["--adapter", STREAM]
    done = served.tried(words)
    assert (done.returncode, done.stdout) == (0, "adapter0\nadapter1\n")
    for number in 0, 1:
        assert len(dvbemu.Report.load(f"{served.report}.{number}").node("dvr").replies("open")) == 1


def test_seats(served):
    """A program has a seat, which its forked children share; the ninth program is told EIO, and that is counted."""
    script = f"import os\nopen({DEMUX!r})\nfor _ in range(20):\n if not os.fork(): os._exit(not open({DEMUX!r}))\n"
    children = script + "print([os.wait()[1] for _ in range(20)] == [0] * 20)"
    assert served.run(sys.executable, "-c", children).stdout == "True\n"
    nine = "for i in 1 2 3 4 5 6 7 8 9; do (sh -c 'exec 3< /dev/dvb/adapter0/demux0 && sleep 7' 2> $i) & done; wait; cat [1-9]"
    done = served.run("sh", "-c", nine)
    assert len(re.findall("I/O error|Input/output error", done.stdout)) == 1, done.stdout
    assert "1 program got EIO, since only 8 can be served at a time" in done.stderr


def test_a_killed_program(served):
    """On one seat a program finds all free behind one that was killed."""
    opens = f"exec 3< {DEMUX} 4<> {TUNER} 5< {RECORDER}"
    words = served.words("sh", "-c", f"for i in 1 2 3; do sh -c '{opens}; kill -9 $$'; done; {opens}; echo free")
    words[2:2] = ["--seats", "1"]
    done = served.tried(words)
    assert done.stdout == "free\n", done.stderr


def test_killed(served):
    """Where the wrapper is killed nothing is left: no process, no mount and no folder."""
    child = served.begun("sleep", "4321")
    folder = os.path.dirname(answering(child.pid)[1])
    os.kill(child.pid, signal.SIGKILL)
    child.communicate()
    assert comes(lambda: not any(folder in " ".join(words) for words in processes().values()) and not os.path.exists(folder))
    assert comes(lambda: ["sleep", "4321", ""] not in processes().values())
    with open("/proc/mounts", encoding="utf-8") as file:
        assert folder not in file.read()


def test_what_answers_is_killed(served):
    """Where what answers is killed a program is told so, the report comes, and why the devices went is said."""
    child = served.begun(sys.executable, "-c", LOOKS)
    assert comes((served.folder / "open").exists)
    os.kill(answering(child.pid)[0], signal.SIGKILL)
    assert "has ended by SIGKILL" in child.communicate(timeout=ENDS)[1]
    assert child.returncode in (103, 107)
    assert len(dvbemu.Report.load(served.report).node("n0").replies("open")) == 1


def test_another_user(served):
    """Who isn't root has a namespace of users too, and is himself in it."""
    needs("setpriv")
    if os.geteuid():
        pytest.skip("root alone becomes another user")
    if not all(os.stat(folder).st_mode & 1 for folder in (ROOT, *ROOT.parents)):
        pytest.skip("others can't look into the repository")
    shutil.copy(TESTS / "fuse_calls.py", served.folder)
    shutil.copy(STREAM, served.folder / "s.ts")
    for folder in (served.folder, *served.folder.parents):
        if not os.stat(folder).st_mode & 1:  # pytest's own, which are closed to others
            os.chmod(folder, 0o755)
    os.chown(served.folder, NOBODY, NOBODY)
    words = served.words("sh", "-c", "id -u; exec \"$0\" fuse_calls.py", sys.executable)
    words[words.index(STREAM)] = "s.ts"
    user = ["setpriv", "--reuid", str(NOBODY), "--regid", str(NOBODY), "--clear-groups"]
    done = served.tried([*user, *words], env={**os.environ, "TMPDIR": "/tmp"})
    if "user namespaces aren't allowed here" in done.stderr:
        pytest.skip(done.stderr)
    assert done.stdout.startswith(f"{NOBODY}\n") and done.stdout.endswith("right\n"), done.stderr


def test_rights_are_given_up(served):
    """A program that root has started and that becomes another user opens the devices."""
    needs("setpriv")
    if os.geteuid():
        pytest.skip("root alone becomes another user")
    done = served.run("setpriv", "--reuid", str(NOBODY), "--clear-groups", "sh", "-c", "exec 3< /dev/dvb/adapter0/dvr0 && id -u")
    if "sees no other users" in done.stderr:
        pytest.skip(done.stderr)
    assert done.stdout == f"{NOBODY}\n"


def test_dvbv5(served):
    """dvbv5-scan finds the devices by libudev, and both services; dvbv5-zap records what it has read."""
    needs("dvbv5-scan", "dvbv5-zap")
    done = served.run("dvbv5-scan", "-o", "channels", str(EXAMPLES / "programs" / "dvbv5.conf"), packets="3000")
    channels = (served.folder / "channels").read_text(encoding="utf-8")
    assert {"257", "258"} == set(re.findall(r"SERVICE_ID = (\d+)", channels)), done.stderr
    name = re.search(r"\[(.*)\]", channels)[1]
    served.run("dvbv5-zap", "-c", "channels", "-t", "2", "-o", "z.ts", name, packets="3000")
    recorded = (served.folder / "z.ts").read_bytes()
    assert len(recorded) >= 18800 and dvbemu.Report.load(served.report).node("dvr").data().startswith(recorded)


@pytest.mark.parametrize("before, told", MISSING.values(), ids=MISSING)
def test_what_is_missing(served, before, told):
    """Where the system or a container has not what --fuse needs, one line says what, and the status is 1."""
    needs("unshare", "setpriv")
    done = served.tried(["unshare", "-rm", "sh", "-c", f"{before} \"$@\"", "sh", *served.words("true")])
    if "unshare failed" in done.stderr:
        pytest.skip(done.stderr)
    assert (done.returncode, done.stderr) == (1, f"dvbemu serve: --fuse: {told}; --preload needs no mount\n")


def test_words(served):
    """One way alone is asked for; a command that isn't there is told as ever."""
    wrong = served.tried([PROGRAM, "serve", "--fuse", "--preload", STREAM, "--", "true"])
    assert wrong.returncode == 2 and "not allowed with" in wrong.stderr
    (served.folder / "there").write_text("#!/none\n")
    os.chmod(served.folder / "there", 0o755)
    done = served.tried(served.words("./there"))
    assert done.returncode == 127 and "dvbemu serve: ./there: No such file or directory" in done.stderr
