"""`dvbemu test --jobs` over logs of GNU parallel that stand here, and over what it writes: of two jobs, and of a script over
recordings by two logins, stopped in the middle, gone on with, and one done again that failed. The logins are of this machine, by
a server of ssh that each of them starts for itself, at no port; where that isn't possible they are `:` twice. A job array of
Slurm is tried by its command alone, as docs/EVERYWHERE.md shows it, a number at a time.
"""
import os
import re
import shlex
import shutil
import subprocess
import warnings

import pytest
from conftest import EXAMPLES, PROGRAM, ROOT, needs
from dvbemu import joblog

STREAM = EXAMPLES / "programs" / "scan.ts"
SCRIPT = "c0 open n0\nc0 section n0 0 0 5 0=00/ff/00\nc0 readw n0 4096\n"
# What a server of ssh and ssh itself are told of two logins of this machine.
SERVER = """\
HostKey {folder}/host
AuthorizedKeysFile {folder}/user.pub
StrictModes no
UsePAM no
PidFile none
PasswordAuthentication no
"""
LOGINS = """\
Host one two
    ProxyCommand {server} -i -f {folder}/server
    IdentityFile {folder}/user
    IdentitiesOnly yes
    UserKnownHostsFile {folder}/known
    StrictHostKeyChecking no
    BatchMode yes
    LogLevel ERROR
"""

# Two hosts; job 2 has failed and was done again, job 3 was ended by SIGKILL; of job 4 the line is still written.
LOG = (f"{joblog.HEAD}\n2\tone\t1.5\t0.1\t0\t0\t1\t0\ttest b\n"
       "1\ttwo\t1.0\t0.2\t0\t7\t0\t0\ttest a\tand more\n3\tone\t1.9\t0.3\t0\t0\t0\t9\ttest c\n")
AGAIN = "2\ttwo\t2.5\t0.1\t0\t0\t0\t0\ttest b\n4\ttwo\t2.6\t0.1"
TOLD = "1..3\nok 1 - test a\tand more\n{}ok 2 - test b\n{}not ok 3 - test c\n# ended by the signal 9, on one\n# {} of 3 failed\n"
# Texts that are no logs, and what is told of each.
WRONG = {
    "": "line 1: expected the head", "Seq\tHost\n": "line 1: expected the head", joblog.HEAD: "line 1: expected the head",
    f"{joblog.HEAD}\n1\ttwo\t1.0\t0.2\t0\t7\t0\ttest\n": "line 2: expected a job",
    f"{joblog.HEAD}\nx\ta\t1\t1\t0\t0\t0\t0\ttest\n": "line 2: expected a job",
}  # fmt: skip

LOGS = [
    (LOG, (1, TOLD.format("not ", "# ended with the status 1, on one\n", 2), "")),
    (LOG + AGAIN, (1, TOLD.format("", "", 1), "")),
    (joblog.HEAD + "\n", (1, "1..0\n")),
]


@pytest.fixture
def told_of(cli, tmp_path):
    """How `test --jobs` ends over a log."""

    def made(text):
        (tmp_path / "log").write_text(text)
        return cli("test", "--jobs", str(tmp_path / "log"))

    return made


@pytest.mark.parametrize("text, wanted", LOGS)
def test_log(told_of, text, wanted):
    assert told_of(text)[: len(wanted)] == wanted


@pytest.mark.parametrize("text, wanted", WRONG.items())
def test_no_log(told_of, text, wanted):
    status, out, err = told_of(text)
    assert (status, out) == (1, "")
    assert wanted in err


def test_log_of_parallel(cli, tmp_path):
    needs("parallel")
    path = str(tmp_path / "written")
    subprocess.run(["parallel", "--will-cite", "--joblog", path, "{}", ":::", "true", "exit 3"], stdin=subprocess.DEVNULL,
                   check=False)
    wanted = "1..2\nok 1 - true\nnot ok 2 - exit 3\n# ended with the status 3, on :\n# 1 of 2 failed\n"
    assert cli("test", "--jobs", path)[:2] == (1, wanted)


def logins_in(folder):
    """How parallel is told of two logins, and their names in its log."""
    path = shutil.which("sshd") or shutil.which("/usr/sbin/sshd")
    if path and shutil.which("ssh"):
        for name, text in ("server", SERVER), ("logins", LOGINS):
            (folder / name).write_text(text.format(folder=folder, server=path))
        for name in "host", "user":
            subprocess.run(["ssh-keygen", "-q", "-t", "ed25519", "-N", "", "-f", folder / name], check=True)
        words = ["ssh", "-F", str(folder / "logins")]
        if not subprocess.run([*words, "one", "true"], stdin=subprocess.DEVNULL, stderr=subprocess.DEVNULL,
                              check=False).returncode:
            return ["--ssh", " ".join(words), "--sshlogin", "8/one,8/two"], {"one", "two"}
    warnings.warn("ssh to this machine isn't possible; `:` is taken twice")
    return ["--sshlogin", "8/:,8/:"], {":"}


def shown(pattern):
    """A command that docs/EVERYWHERE.md shows, or a part of it."""
    return re.search(pattern, (ROOT / "docs" / "EVERYWHERE.md").read_text(encoding="utf-8"), re.M | re.S)[1]


class Spread:
    """A script that parallel spreads over recordings and two logins, by the command that docs/EVERYWHERE.md shows."""

    def __init__(self, folder, cli):
        self.folder, self.cli = folder, cli
        logins, self.hosts = logins_in(folder)
        self.words = shlex.join(["parallel", "--will-cite", *logins])
        self.command = shown(r"^parallel --sshlogin 8/one,8/two (.*?)\ndvbemu test --jobs jobs$").replace("dvbemu", PROGRAM)
        self.recordings = [folder / "recordings" / f"{number}.ts" for number in range(6)]
        self.recordings[0].parent.mkdir()
        (folder / "my.script").write_text(SCRIPT)

    def told(self, command):
        """The status and the lines that are told of the jobs, once the command has run."""
        subprocess.run(f"{self.words} {command}", shell=True, cwd=self.folder, stdin=subprocess.DEVNULL,
                       stdout=subprocess.DEVNULL,
                       stderr=subprocess.DEVNULL, check=False)  # fmt: skip
        done = self.cli("test", "--jobs", str(self.folder / "jobs"))
        return done.status, done.out.split("\n")[:-1]


def test_hosts(cli, tmp_path):
    """Over three recordings, then over all, of which one can't be read yet, and then once more for that one."""
    needs("parallel")
    spread = Spread(tmp_path, cli)
    for path in spread.recordings[:3]:
        shutil.copy(STREAM, path)
    status, told = spread.told(spread.command)
    assert (status, told[0]) == (0, "1..3")
    for path in spread.recordings[3:-1]:
        shutil.copy(STREAM, path)
    unread = spread.recordings[-1]
    unread.mkdir()
    status, told = spread.told(spread.command)
    assert (status, told[0], told[-1]) == (1, "1..6", "# 1 of 6 failed")
    assert told[6].startswith("not ok 6 - ") and told[7].startswith("# ended with the status 1, on ")
    unread.rmdir()
    shutil.copy(STREAM, unread)
    status, told = spread.told(spread.command.replace("--resume", "--resume-failed"))
    assert (status, [line.split()[0] for line in told[1:]]) == (0, ["ok"] * 6)
    lines = (tmp_path / "jobs").read_text()
    assert lines.count("\n") == 8
    assert {job.host for job in joblog.read(lines)} == spread.hosts
    wanted = subprocess.run([PROGRAM, "steps", "my.script", STREAM], cwd=tmp_path, stdout=subprocess.PIPE, check=True).stdout
    assert b"data 00b0" in wanted
    assert [path.read_bytes() for path in tmp_path.glob("reports/*/*/stdout")] == [wanted] * 6


@pytest.mark.parametrize("number", [1, 2])
def test_array(tmp_path, number):
    """What each job of an array of Slurm does."""
    command = shown(r"^sbatch .* --wrap \\\n +'(.*?)'$")
    (tmp_path / "recordings").mkdir()
    recordings = [f"recordings/a {place}.ts" for place in range(2)]
    for name in recordings:
        shutil.copy(STREAM, tmp_path / name)
    (tmp_path / "my.script").write_text(SCRIPT)
    (tmp_path / "list").write_text("".join(f"{name}\n" for name in recordings))
    env = {**os.environ, "PATH": f"{ROOT}:{os.environ['PATH']}", "SLURM_ARRAY_TASK_ID": str(number)}
    assert subprocess.run(["sh", "-c", command], cwd=tmp_path, env=env, check=False).returncode == 0
    made = [(tmp_path / name.replace(".ts", ".report")) for name in recordings]
    assert [path.exists() for path in made] == [place == number for place in (1, 2)]
    assert b"data 00b0" in made[number - 1].read_bytes()
