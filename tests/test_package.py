"""What `make install`, `make tar` and `dpkg-buildpackage` make, over the programs that are built here. The package of Debian is
unpacked, and README's first commands are run from it as another user, in an empty environment and folder, without the repository,
with coreutils and python3 alone in the PATH, and so is each word; it is installed below a folder by dpkg, used, and removed
again; apt finds what it needs; the same tree as a tar, and below a prefix; the manual; completion; lintian; the programs'
libraries; the module; what the packed pages link to and name in commands. A job of continuous integration, as docs/EVERYWHERE.md
shows it, fetches and caches the package, with stand-ins for apt-get and pytest. A gate that has failed, has not ended or was one
over another commit is refused.
"""
import glob
import hashlib
import os
import re
import shutil
import subprocess
import sys
import tempfile
from pathlib import Path

import proof
import pytest
from conftest import EXAMPLES, ROOT, needs

OUT = [f"crates/{name}/out/{name}" for name in ("dvbemu", "dvb_serve")]
PRELOAD, DOC, LIBRARY = "preload/out/preload.so", "share/doc/dvbemu", "lib/dvbemu"
STREAM = EXAMPLES / "programs" / "scan.ts"
# What a run of the gate writes.
COMMIT = "0123abcd" * 5
HEAD = f"commit {COMMIT}\nrt: low_one proved\n124 passed, 0 failed (7 kept)\n"
CHECKS = proof.checks_of_gate()
WHOLE = HEAD + "".join(f"== {name}\ntold: 1\n{number} passed, 0 failed\n" for number, name in enumerate(CHECKS, 3))
VERSION, TOOLCHAIN = (ROOT / "VERSION").read_text().splitlines()[:2]
# What Debian 12 has in its base, of the libraries that a program may ask for.
BASE = r"linux-vdso|libc|libm|libgcc_s|ld-linux-x86-64|libpthread|libdl|librt"
NOBODY = "65534"
# What README's first commands are between, and what they run where the scanner isn't there; and what else is done with their
# report.
FIRST, SCANNER = "set -e; dvbemu --version\n{}\ndvbemu check out/t/scan.report out/t/scan.session", "dvbv5-scan"
READER = "python3 -c 'import os; os.close(os.open(\"/dev/dvb/adapter0/demux0\", os.O_RDWR))'"
ALL = """\
dvbemu --help | sed -n 's/^  \\([a-z]*\\)  .*/\\1/p' > words
for word in $(cat words); do dvbemu $word --help > help; test -s help || echo $word: no help; done
for word in explain picture page json; do dvbemu $word out/r > told; test -s told || echo $word: nothing; done
dvbemu explain out/r @/share/doc/dvbemu/examples/programs/scan.ts > told || echo explain: $?
"""
# The pages of the manual, and a word of each.
PAGES = {"dvbemu.1": "explain", "dvbemu-serve.1": "--packets", "dvbemu-json.1": "--back", "dvbemu-script.5": "drain",
         "dvbemu-report.5": "overflow"}
COMPLETE = """\
. @/share/bash-completion/completions/dvbemu
COMP_WORDS=(dvbemu expl) COMP_CWORD=1; _dvbemu; echo "${COMPREPLY[*]}"
COMP_WORDS=(dvbemu steps --ba) COMP_CWORD=2; _dvbemu; echo "${COMPREPLY[*]}"
"""
# What is typed at a zsh, a tabulator behind a part of a word, and what dvbemu says of the whole word.
STARTED = "path=(@/bin $path); fpath=(@/share/zsh/vendor-completions $fpath); autoload -Uz compinit; compinit -u -D"
TYPED = {"expl\\t--nope": "explain: error: unrecognized arguments: --nope", "steps --ba\\t": "--batch: expected one argument"}
TYPING = """\
zmodload zsh/zpty
zpty z "zsh -i"
zpty -w -n z $'dvbemu @\\n'
zpty -r z told $'*error: *\\n*'
print -r -- $told
"""
# What a job of continuous integration asks of apt-get and pytest, which only note it: apt-get finds each file that is named.
NOTING = """\
#!/bin/sh
echo "${0##*/} $*" >> asked
for word; do case $word in ./*) test -f "$word" || exit 100 ;; esac; done
"""
# Texts that are no gate, and what is told of each.
NO_GATES = [
    (WHOLE.replace("\n3 passed, 0 failed", "\n3 passed, 1 failed"), f"the gate has failed: {CHECKS[0]}: 3 passed, 1 failed"),
    (WHOLE[: WHOLE.index(f"== {CHECKS[-1]}\n")], f"come to its end: it has no sum of {CHECKS[-1]}"),
    (HEAD, f"come to its end: it has no sum of {CHECKS[0]}"),
    (WHOLE.replace("124 passed, ", ""), "no sum of rt ci"),
    (WHOLE.replace("124 passed, ", "0 passed, "), "no sum of rt ci"),
    (WHOLE.replace("0123abcd", "89abcdef"), "isn't one over"),
    (WHOLE.replace("\nrt: low_one", ", changed\nrt: low_one"), "isn't one over"),
]


# ------ what is refused


def test_lines_of_a_gate():
    told = ["rt ci: 124 passed, 0 failed (7 kept)",
            *(f"{name}: {number} passed, 0 failed" for number, name in enumerate(CHECKS, 3))]
    assert CHECKS == ["tests/run"]
    assert proof.gate_lines(WHOLE, COMMIT) == told


@pytest.mark.parametrize("text, wanted", NO_GATES)
def test_gate_that_is_not_whole(text, wanted):
    with pytest.raises(proof.Refused) as why:
        proof.gate_lines(text, COMMIT)
    assert wanted in str(why.value)


@pytest.mark.parametrize("gate", ["gate", "missing"])
def test_nothing_is_told(tmp_path, gate):
    """Behind a gate that has failed, and without the file that is named."""
    (tmp_path / "gate").write_text(WHOLE.replace(" 0 failed", " 1 failed"))
    (tmp_path / "tree").mkdir()
    words = [ROOT / "packaging" / "proof.py", "--gate", tmp_path / gate, tmp_path / "tree"]
    ran = subprocess.run(words, capture_output=True, text=True, check=False)
    assert (ran.returncode, ran.stdout) == (1, "")
    assert ran.stderr.startswith("packaging/proof.py: ") and ran.stderr.count("\n") == 1
    assert list((tmp_path / "tree").iterdir()) == []


# ------ what is packed


@pytest.fixture(scope="module")
def folder():
    """A folder that is open to another user."""
    with tempfile.TemporaryDirectory() as made:
        os.chmod(made, 0o755)
        yield made


@pytest.fixture(scope="module")
def source(folder):
    """The repository's files and the programs that are built here, in a folder of their own; the programs aren't built anew
    (`make -o all`)."""
    if not all((ROOT / name).exists() for name in OUT):
        pytest.skip("the programs aren't built")
    if not (ROOT / PRELOAD).exists():
        subprocess.run([ROOT / "dvbemu-serve", "--packets", "3000", "--keep", "none", STREAM, "--", "true"], check=True)
    made = Path(folder, "build", "source")
    names = subprocess.run(["git", "-C", ROOT, "ls-files", "-z"], stdout=subprocess.PIPE, text=True,
                           check=True).stdout.split("\0")
    for name in [*filter(None, names), *OUT, PRELOAD]:
        if (ROOT / name).exists():
            (made / name).parent.mkdir(parents=True, exist_ok=True)
            shutil.copy2(ROOT / name, made / name, follow_symlinks=False)
    return made


def make(source, *words):
    """What make says."""
    env = {**os.environ, "PYTHONDONTWRITEBYTECODE": "1", "SOURCE_DATE_EPOCH": "1790000000", "MAKEFLAGS": "-o all"}
    ran = subprocess.run(words, cwd=source, env=env, capture_output=True, text=True, check=False)
    assert ran.returncode == 0, ran.stdout + ran.stderr
    return ran


@pytest.fixture(scope="module")
def tree(source):
    """The tree that is installed."""
    make(source, "make", "tree")
    return str(source / "out" / "tree")


@pytest.fixture(scope="module")
def deb(source):
    """The package of Debian."""
    needs("dpkg-buildpackage", "dh_python3", "/usr/bin/python3")
    make(source, "dpkg-buildpackage", "--build=binary", "--no-sign", "--no-check-builddeps")
    return str(source.parent / f"dvbemu_{VERSION}_amd64.deb")


@pytest.fixture(scope="module")
def unpacked(deb, folder):
    """The same, unpacked."""
    place = os.path.join(folder, "unpacked")
    subprocess.run(["dpkg-deb", "-x", deb, place], check=True)
    return os.path.join(place, "usr")


def files_in(root):
    """All files and links below a folder, as they are named from there."""
    return sorted(str(path.relative_to(root)) for path in Path(root).rglob("*") if path.is_symlink() or path.is_file())


def test_version():
    """It stands in three places, the same in each."""
    import dvbemu
    assert dvbemu.__version__ == VERSION
    assert (ROOT / "debian" / "changelog").read_text().startswith(f"dvbemu ({VERSION}) ")


def test_proof(tree):
    """The gate's sums, where a gate is told; else that none was."""
    told = Path(tree, DOC, "PROOF").read_text()
    assert TOOLCHAIN.removeprefix("proved with ") in told and proof.NO_GATE[0] in told


def test_proof_behind_a_gate(tmp_path):
    for name in LIBRARY, DOC:
        (tmp_path / name).mkdir(parents=True)
    lines = proof.gate_lines(WHOLE, COMMIT)
    proof.sign(tmp_path, VERSION, TOOLCHAIN, COMMIT, lines)
    told = (tmp_path / DOC / "PROOF").read_text()
    assert [line for line in lines if f"    {line}\n" not in told] == []
    assert (tmp_path / LIBRARY / "VERSION").read_text() == f"{VERSION} (commit 0123abcd)\n{TOOLCHAIN}\n"


@pytest.mark.parametrize("name", ["tree", "unpacked"])
def test_sums(request, name):
    """The sums of the files, and that these are all files but the package's own."""
    root = request.getfixturevalue(name)
    words = ["sha256sum", "--quiet", "-c", f"{DOC}/SHA256SUMS"]
    sums = subprocess.run(words, cwd=root, capture_output=True, text=True, check=False)
    assert (sums.returncode, sums.stdout, sums.stderr) == (0, "", "")
    listed = {line[66:] for line in Path(root, DOC, "SHA256SUMS").read_text().splitlines()}
    others = {name for name in files_in(root) if not os.path.islink(os.path.join(root, name))} - listed
    own = {f"{DOC}/SHA256SUMS", f"{DOC}/changelog.gz", f"{DOC}/copyright", "share/lintian/overrides/dvbemu"}
    assert others - {one for one in others if one.startswith("share/python3/")} <= own


@pytest.mark.parametrize("name", ["tools", "tests", "python/src/dvbemu.egg-info/SOURCES.txt", "preload/cases"])
def test_is_not_packed(tree, name):
    assert not os.path.exists(os.path.join(tree, LIBRARY, name))


def test_nothing_is_packed_that_python_keeps(tree):
    assert [name for name in files_in(tree) if "__pycache__" in name] == []


def test_libraries(tree):
    """None beyond Debian's base."""
    words = ["ldd", *(os.path.join(tree, LIBRARY, name) for name in [*OUT, PRELOAD])]
    libraries = subprocess.run(words, stdout=subprocess.PIPE, text=True, check=True).stdout
    lines = [line for line in libraries.split("\n") if line.startswith("\t")]
    assert lines and [line for line in lines if not re.match(rf"\t(?:/lib64/)?(?:{BASE})\.so", line)] == []


def test_links(tree):
    """What the packed pages link to is packed, and each of examples/ that they name in a block of commands."""
    doc, missing, links, examples = os.path.join(tree, DOC), [], 0, 0
    for page in glob.glob(os.path.join(glob.escape(doc), "**", "*.md"), recursive=True):
        text = Path(page).read_text()
        linked = re.findall(r"\]\((?!https?:)([^)#]+)", text)
        named = re.findall(r"(?<![\w/])examples/[\w./-]*\w", "".join(re.findall(r"^```.*?^```$", text, re.M | re.S)))
        paths = [*(os.path.join(os.path.dirname(page), link) for link in linked), *(os.path.join(doc, name) for name in named)]
        missing += [(os.path.relpath(page, doc), os.path.relpath(path, doc)) for path in paths if not os.path.exists(path)]
        links, examples = links + len(linked), examples + len(named)
    assert missing == []
    assert links and examples


@pytest.mark.parametrize("name, word", PAGES.items())
def test_manual(tree, name, word):
    needs("pandoc", "man")
    path = os.path.join(tree, "share", "man", f"man{name[-1]}", f"{name}.gz")
    env = {**os.environ, "MANWIDTH": "80"}
    ran = subprocess.run(["man", "--warnings", "-l", path], env=env, capture_output=True, text=True, check=False)
    assert (ran.returncode, ran.stderr) == (0, "")
    plain = re.sub(".\b", "", ran.stdout).replace("\u2010", "-").replace("\u2212", "-")
    assert word in plain and "Defined:" not in plain


def test_completion_of_bash(tree):
    env = {**os.environ, "PATH": f"{tree}/bin:{os.environ['PATH']}"}
    told = subprocess.run(["bash", "-c", COMPLETE.replace("@", tree)], env=env, capture_output=True, text=True, check=False)
    assert told.stdout == "explain\n--batch\n", told.stderr


@pytest.mark.parametrize("typed, wanted", TYPED.items())
def test_completion_of_zsh(tree, tmp_path, typed, wanted):
    needs("zsh")
    (tmp_path / ".zshrc").write_text(STARTED.replace("@", tree))
    words, env = ["zsh", "-f", "-c", TYPING.replace("@", typed)], {**os.environ, "ZDOTDIR": str(tmp_path)}
    assert wanted in subprocess.run(words, env=env, capture_output=True, text=True, timeout=60, check=False).stdout


# ------ what is unpacked, and used: by tests that run one by one, so that one package is made for all


@pytest.fixture(scope="module")
def plain_path(folder):
    """A folder of links to coreutils and python3, what a shell script needs of Debian's base beside them, and the scanner of
    README."""
    path = os.path.join(folder, "path")
    os.makedirs(path)
    listed = subprocess.run(["dpkg", "-L", "coreutils"], stdout=subprocess.PIPE, text=True, check=True).stdout.split()
    for name in [*(one for one in listed if "/bin/" in one), "/bin/sh", "/bin/sed", "/bin/grep",
                 *filter(None, [shutil.which(SCANNER)])]:
        os.symlink(name, os.path.join(path, os.path.basename(name)))
    os.symlink("/usr/bin/python3", os.path.join(path, "python3"))
    return path


@pytest.fixture(scope="module")
def hiding():
    """The words in front of a command that run it where this repository isn't."""
    needs("unshare", "mount")
    names = [shutil.which("unshare"), "--mount", *(["--user", "--map-root-user"] if os.getuid() else [])]
    words = [*names, "/bin/sh", "-c", f'{shutil.which("mount")} -t tmpfs none "$0" && exec "$@"', str(ROOT)]
    look = [*words, "/bin/sh", "-c", "! test -e $0/VERSION", ROOT]
    if subprocess.run(look, stderr=subprocess.DEVNULL, check=False).returncode:
        pytest.skip("unshare isn't allowed")
    return words


@pytest.fixture(scope="module")
def as_another(hiding, plain_path, unpacked, folder):
    """A script over what is unpacked, in a folder and nearly no environment, as another user where this one may be it."""
    place = os.path.join(folder, "first")
    os.makedirs(place)

    def made(script):
        words = ["/bin/sh", "-c", script.replace("@", unpacked)]
        if os.getuid() == 0:
            shutil.chown(place, int(NOBODY))
            words = ["/usr/bin/setpriv", f"--reuid={NOBODY}", f"--regid={NOBODY}", "--clear-groups", *words]
        env = {"PATH": f"{unpacked}/bin:{plain_path}", "HOME": place, "TMPDIR": place}
        return place, subprocess.run([*hiding, *words], cwd=place, env=env, capture_output=True, text=True, check=False)

    return made


def first_commands():
    """README's first commands, as they are where dvbemu is installed. In the place of a scanner that isn't there a reader opens a
    node."""
    block = re.search(rf"^```console {SCANNER}\n(.*?)^```$", (ROOT / "README.md").read_text(), re.M | re.S)[1]
    commands = "\n".join(line[2:] for line in block.split("\n") if line.startswith("$ "))
    commands = commands.replace("./dvbemu", "dvbemu").replace("examples/", "@/share/doc/dvbemu/examples/")
    return commands if shutil.which(SCANNER) else re.sub(rf"-- {SCANNER} .*", f"-- {READER}", commands)


@pytest.mark.alone
def test_first_commands(as_another):
    """README's first commands, and then each word."""
    commands = first_commands()
    assert commands.count("\n") >= 2
    place, ran = as_another(FIRST.format(commands))
    assert ran.returncode == 0 and ran.stdout.endswith("yes\n"), ran
    wanted = ["opens n0", TOOLCHAIN, *(["sets a section filter on n0"] if SCANNER in commands else [])]
    assert [words for words in wanted if words not in ran.stdout] == []
    assert [name for name in os.listdir(place) if name.startswith("dvbemu-")] == []
    place, ran = as_another(ALL)
    assert (ran.stdout, ran.stderr) == ("", "")
    assert len(Path(place, "words").read_text().split()) >= 19


@pytest.mark.alone
def test_module(unpacked):
    """It finds what is packed beside it."""
    packages = os.path.join(unpacked, "lib", "python3", "dist-packages")
    code = "import dvbemu; print(len(dvbemu.steps(b'c0 open n0\\nstream\\n').nodes), dvbemu.program.command_of('dvbemu'))"
    ran = subprocess.run(["/usr/bin/python3", "-W", "error", "-c", code], env={"PATH": "/usr/bin:/bin", "PYTHONPATH": packages},
                         capture_output=True, text=True, check=False)  # fmt: skip
    assert ran.stdout.split() == ["1", os.path.join(unpacked, LIBRARY, "dvbemu")], ran.stderr


@pytest.mark.alone
def test_apt(deb):
    """It finds all that the package needs."""
    needs("apt-get")
    ran = subprocess.run(["apt-get", "--simulate", "install", deb], capture_output=True, text=True, check=False)
    assert ran.returncode == 0 and "dvbemu" in ran.stdout, ran


def integration():
    """The commands of a job of continuous integration, as docs/EVERYWHERE.md shows them."""
    page = (ROOT / "docs" / "EVERYWHERE.md").read_text()
    return re.search(r"^```\n(.*?)^```$", page[page.index("\n## Continuous integration\n") :], re.M | re.S)[1]


@pytest.mark.alone
def test_integration(deb, tmp_path):
    """A job of continuous integration: with nothing in its cache, with the package there, and with a package of another sum."""
    needs("curl")
    bin_of_job, job = tmp_path / "noting", tmp_path / "job"
    bin_of_job.mkdir()
    job.mkdir()
    for name in "apt-get", "pytest":
        (bin_of_job / name).write_text(NOTING)
        (bin_of_job / name).chmod(0o755)
    right = hashlib.sha256(Path(deb).read_bytes()).hexdigest()
    for packages, wanted, status in (os.path.dirname(deb), right, 0), ("/nowhere", right, 0), ("/nowhere", "0" * 64, 1):
        env = {"PATH": f"{bin_of_job}:{os.environ['PATH']}", "PACKAGES": f"file://{packages}", "SUM": wanted}
        ran = subprocess.run(["sh", "-e", "-c", integration()], cwd=job, env=env, capture_output=True, text=True, check=False)
        assert ran.returncode == status, (packages, ran)
    asked = Path(job, "asked").read_text().splitlines()
    wanted = ["apt-get update", f"apt-get install -y ./cache/{os.path.basename(deb)} ", "pytest "] * 2
    assert len(asked) == len(wanted) and all(map(str.startswith, asked, wanted)), asked


@pytest.mark.alone
@pytest.mark.parametrize("script, wanted", [("postinst", "py3compile -p dvbemu"), ("prerm", "py3clean -p dvbemu")])
def test_modules_are_compiled(deb, script, wanted):
    """Where the package is installed, for users who may not write there; and what Python keeps goes with it."""
    told = subprocess.run(["dpkg-deb", "--info", deb, script], stdout=subprocess.PIPE, text=True, check=True).stdout
    assert wanted in told


@pytest.mark.alone
def test_removal(deb, tmp_path):
    """The package is installed below a folder by dpkg, and removed again: nothing is left."""
    if os.getuid():
        pytest.skip("dpkg installs for root alone")
    needs("dpkg")
    state, root = os.path.join(tmp_path, "state"), os.path.join(tmp_path, "system")
    for folder in os.path.join(state, "updates"), os.path.join(state, "info"), root:
        os.makedirs(folder)
    for name in "status", "available":
        Path(state, name).touch()
    words = ["dpkg", "--admindir", state, "--instdir", root, "--force-depends", "--force-script-chrootless", "--log=/dev/null"]
    # (dpkg looks for its programs in the PATH, where a user's may lack those folders)
    env = {**os.environ, "PATH": f"{os.environ['PATH']}:/usr/sbin:/sbin"}
    ran = subprocess.run([*words, "--install", deb], env=env, capture_output=True, text=True, check=False)
    assert ran.returncode == 0, ran
    assert os.path.exists(os.path.join(root, "usr", "bin", "dvbemu"))
    ran = subprocess.run([*words, "--purge", "dvbemu"], env=env, capture_output=True, text=True, check=False)
    assert ran.returncode == 0, ran
    assert os.listdir(root) == []


@pytest.mark.alone
def test_lintian(deb):
    needs("lintian")
    words = ["lintian", "--allow-root", "--tag-display-limit", "0", "--fail-on", "error", deb]
    told = subprocess.run(words, capture_output=True, text=True, check=False)
    assert told.returncode == 0, told.stdout + told.stderr


def test_prefix(source, tmp_path):
    """Installed below a folder, twice, and removed: a file that was there stays."""
    place = tmp_path / "a prefix"
    (place / "bin").mkdir(parents=True)
    (place / "bin" / "other").touch()
    words = f"PREFIX={place}"
    make(source, "make", "install", words)
    make(source, "make", "install", words)
    ran = subprocess.run([place / "bin" / "dvbemu", "--version"], capture_output=True, text=True, check=False)
    assert ran.stdout.startswith(f"dvbemu {VERSION} (commit ") and TOOLCHAIN in ran.stdout, ran
    subprocess.run([sys.executable, "-c", "import dvbemu.explain.told"], env={"PYTHONPATH": place / LIBRARY / "python" / "src"},
                   check=True)
    make(source, "make", "uninstall", words)
    assert files_in(place) == ["bin/other"]


def test_tar(source, tmp_path):
    """Unpacked in a folder with a blank in its name."""
    make(source, "make", "tar")
    path, other = source / "out" / f"dvbemu-{VERSION}.tar.gz", os.path.join(tmp_path, "an other")
    os.makedirs(other)
    subprocess.run(["tar", "-xzf", path, "-C", other], check=True)
    assert os.listdir(other) == [f"dvbemu-{VERSION}"]
    dvbemu = os.path.join(other, f"dvbemu-{VERSION}", "bin", "dvbemu")
    words = [dvbemu, "steps", "--batch", "1", EXAMPLES / "rules" / "overflow.session"]
    ran = subprocess.run(words, env={"PATH": "/usr/bin:/bin"}, capture_output=True, check=False)
    assert ran.stdout == (EXAMPLES / "rules" / "overflow.report").read_bytes(), ran.stderr
