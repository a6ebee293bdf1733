"""The module of python/ installed by pip and Debian's setuptools, into environments of their own, without a network: from its
folder, as a wheel, and so that it stays where it is (-e). What is installed is imported from another folder under `python3 -W
error`, finds the programs in the PATH, and pytest's plugin is known; it has all files of the module; removed, nothing is left.
"""
import os
import shutil
import subprocess
import zipfile

import pytest
from conftest import EXAMPLES, ROOT

PYTHON, STREAM = "/usr/bin/python3", EXAMPLES / "programs" / "scan.ts"
NEEDED = "import setuptools, pip, venv, wheel"
# What a test does with the module: it tells where it lies, which programs it calls, which version pip knows, and what a report
# has.
TRIES = """\
import importlib.metadata as known, os, sys
import dvbemu
script = dvbemu.Script("c0 open demux0\\nc0 section n0 0 0 5 table_id=0\\nc0 readw n0 4096\\n")
report = dvbemu.steps(script, sys.argv[1])
print(os.path.dirname(dvbemu.__file__))
print(dvbemu.program.command_of("dvbemu"), dvbemu.program.command_of("dvbemu-serve"))
print(known.version("dvbemu"), [entry.value for entry in known.distribution("dvbemu").entry_points])
print(report.node("n0").data()[:4].hex(), bool(report.check(script, sys.argv[1])))
"""


@pytest.fixture
def source(tmp_path):
    """The folder python/, in which pip leaves what it builds."""
    return shutil.copytree(ROOT / "python", tmp_path / "python",
                           ignore=shutil.ignore_patterns("__pycache__", "build", "*.egg-info"))


@pytest.fixture
def environment(tmp_path):
    """An environment that has Debian's setuptools."""
    if not os.path.exists(PYTHON) or subprocess.run([PYTHON, "-c", NEEDED], stderr=subprocess.DEVNULL, check=False).returncode:
        pytest.skip("python3-pip, python3-setuptools, python3-wheel and python3-venv aren't there")
    path = tmp_path / "environment"
    subprocess.run([PYTHON, "-m", "venv", "--system-site-packages", "--without-pip", path], check=True)
    return path


def pip(environment, *words):
    """What pip says of an environment."""
    own = {"PIP_DISABLE_PIP_VERSION_CHECK": "1", "PIP_NO_INDEX": "1", "PIP_CONFIG_FILE": os.devnull}
    ran = subprocess.run([PYTHON, "-m", "pip", "--python", environment / "bin" / "python", *words],
                         env={**os.environ, **own}, capture_output=True, text=True, check=False)  # fmt: skip
    assert ran.returncode == 0, ran.stdout + ran.stderr


def packages_of(environment):
    """The folder of what is installed in an environment."""
    words = [environment / "bin" / "python", "-c", "import sysconfig; print(sysconfig.get_path('purelib'))"]
    return subprocess.run(words, stdout=subprocess.PIPE, text=True, check=True).stdout.strip()


def files_in(folder):
    """All files below a folder, but for what Python keeps of its sources."""
    paths = (os.path.relpath(os.path.join(top, name), folder) for top, _, names in os.walk(folder) for name in names)
    return sorted(path for path in paths if "__pycache__" not in path.split(os.sep))


def try_module(environment, folder, place):
    """The module, from another folder."""
    env = {"PATH": f"{ROOT}:{os.environ['PATH']}", "HOME": str(folder)}
    words = [environment / "bin" / "python", "-W", "error", "-B", "-c", TRIES, STREAM]
    ran = subprocess.run(words, cwd=folder, env=env, capture_output=True, text=True, check=False)
    version = (ROOT / "VERSION").read_text().split("\n", maxsplit=1)[0]
    programs, known = f"{ROOT}/dvbemu {ROOT}/dvbemu-serve", f"{version} ['dvbemu.pytest_plugin']"
    assert ran.stdout.split("\n")[:-1] == [os.path.join(place, "dvbemu"), programs, known, "00b01512 True"], ran.stderr


def try_install(environment, folder, place, *words):
    """Installs the module, and removes it again."""
    packages = packages_of(environment)
    before = files_in(packages)
    pip(environment, "install", "--no-build-isolation", *words)
    try_module(environment, folder, place or packages)
    pip(environment, "uninstall", "--yes", "dvbemu")
    assert files_in(packages) == before


def test_install(environment, source, tmp_path):
    try_install(environment, tmp_path, None, source)


def test_install_in_its_place(environment, source, tmp_path):
    try_install(environment, tmp_path, source / "src", "-e", source)


def test_wheel(environment, source, tmp_path):
    """A wheel, what it has, and its install."""
    pip(environment, "wheel", "--no-build-isolation", "--no-deps", "--wheel-dir", tmp_path / "wheels", source)
    (one,) = (tmp_path / "wheels").iterdir()
    with zipfile.ZipFile(one) as wheel:
        names = {name for name in wheel.namelist() if name.startswith("dvbemu/")}
    assert names == {name for name in files_in(source / "src") if name.startswith("dvbemu/")}
    try_install(environment, tmp_path, None, one)
