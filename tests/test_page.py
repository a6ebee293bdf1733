"""`dvbemu page`: a page asks for nothing, has each title of the picture and each command, and stays small; and in a headless Chromium
(Debian: `chromium`): nothing goes wrong in it, it can be read in windows of 360, 830 and 1,430 columns, light and dark, and search, hiding,
zoom and clicks do what they say.

The sessions are short ones of the plain second program; one report is made here, with more commands than a page lists.
"""
import html
import io
import json
import os
import re
import subprocess
import sys
from functools import lru_cache
from pathlib import Path

import browser
import pytest
from conftest import EXAMPLES, examples
from dvbemu import reports
from dvbemu.picture import drawing, sheet
from oracle import second

# Three clients, of which the last calls a node that isn't its own.
SCRIPT = """c0 open n0
c0 section n0 0 0 5
c1 open n1
c1 size n1 400
c1 pes n1 257 frontend tsdemux_tap 20 4
feed 60
c0 read n0 4096
c2 start n0
c1 read n1 188
c1 read n1 188
c0 close n0
stream
"""
# How many bytes a page may have, and how many seconds a browser may need for it.
MOST, SECONDS = 5_000_000, 3
WINDOWS = 360, 830, 1430
# The least contrast of text, by the Web Content Accessibility Guidelines, 1.4.3.
CONTRAST = 4.5
LUMINANCE = """(words) => words.match(/\\d+/g).slice(0, 3).map((part) => { const value = part / 255;
  return value <= 0.03928 ? value / 12.92 : ((value + 0.055) / 1.055) ** 2.4; })
  .reduce((sum, value, place) => sum + value * [0.2126, 0.7152, 0.0722][place], 0)"""
# The titles of the picture that no mark of the strips has.
MISSING = """(() => { const titles = (id) => [...document.querySelectorAll(id + ' title')].map((one) => one.textContent);
  const there = new Set(titles('#strips')), all = titles('#source'); return all.length ? all.filter((one) => !there.has(one)) : ['none']; })()"""


def report():
    """The report of the script above, over the recording of an example."""
    stream = second.read_script((EXAMPLES / "programs" / "scan.session").read_bytes())[1]
    return second.report(SCRIPT.encode() + stream[: 60 * 188], 4).encode()


def long_report(count):
    """A report with so many polls."""
    entries = [f"{place} c0 {place} poll at=0 = ready readable=0 error=none at=0 ended=0" for place in range(1, count)]
    outcomes = [f"line {place + 1} steps {place}..{place + 1} done" for place in range(count)]
    lines = ["dvbemu 1", "packets=0 skipped=0 rest=0", "client 0", *outcomes, "node 0", "0 c0 0 open = done drop=0..0 tap=keep", *entries]
    return "\n".join([*lines, f"{count} feed 0 end = passed", "end"]).encode() + b"\n"


# ------ without a browser


def titles_of(text):
    """The titles of marks, sorted."""
    return sorted(html.unescape(title) for title in re.findall(r"<title>(.*?)</title>", text, re.S))


@lru_cache
def made_of(name):
    """The report of an example: its text, what is read of it, and its page."""
    given = (EXAMPLES / (name + ".report")).read_text()
    read = reports.read(io.StringIO(given))
    return given, read, sheet.page(read, name)


@pytest.mark.parametrize("name", examples(".report"))
class TestExample:
    """The page of each example."""

    def test_asks_for_nothing(self, name):
        text = made_of(name)[2]
        assert re.findall(r'(?:src|href)="[^#][^"]*"|@import|url\((?!#)', text) == []
        assert "default-src 'none'" in text

    def test_has_each_command(self, name):
        given, _, text = made_of(name)
        assert text.count('<div data-client="') == len(re.findall(r"^line ", given, re.M))

    def test_names_buttons_with_a_sign(self, name):
        assert re.findall(r'<button id="\w+"(?: aria-label="(\w+)")?>[-+]<', made_of(name)[2]) == ["smaller", "larger"]

    def test_has_each_title(self, name):
        _, read, text = made_of(name)
        whole = [line for title in titles_of(drawing.picture(read, name)) for line in title.split("\n") if " here:" not in line and "more" not in line]
        there = html.unescape(text)
        assert "Summed" in text or [line for line in whole if line not in there] == []


@pytest.fixture(scope="module")
def long_page(cli):
    """The page of a report that is too long for a page."""
    status, text, _ = cli("page", stdin=long_report(40_000))
    assert status == 0
    return text


def test_long_page_is_small(long_page):
    assert len(long_page) <= MOST


def test_long_page_tells_what_is_listed(long_page):
    shown, left = long_page.count('<div data-client="'), re.search(r"of 40,000 commands the list has ([\d,]+), .*?([\d,]+) more stand", long_page)
    assert [int(number.replace(",", "")) for number in left.groups()] == [shown, 40_000 - shown]
    assert shown > 5_000


def test_long_page_tells_that_it_is_summed(long_page):
    assert "40,001 columns of calls and batches stand in" in long_page


# ------ in a browser

# In the place of a browser: it writes its words into a file, and answers each question by the same.
STAND_IN = """\
#!/bin/sh
exec python3 -c '
import json, os, sys
open(os.environ["WORDS"], "w").write(json.dumps(sys.argv[1:]))
asked = b""
while more := os.read(3, 65536):
    *each, asked = (asked + more).split(bytes(1))
    for one in each:
        told = {"targetInfos": [{"type": "page", "targetId": 1}], "sessionId": 1}
        os.write(4, json.dumps({"id": json.loads(one)["id"], "result": told}).encode() + bytes(1))
        b"Browser.close" not in one or sys.exit()
' "$@"
"""


def test_folder_of_a_browser(tmp_path):
    """A browser gets its folder as one word, whatever TMPDIR has in its name."""
    place, own, words = tmp_path / "a $(touch told) b;c", tmp_path / "bin", tmp_path / "words"
    place.mkdir()
    own.mkdir()
    (own / "chromium").write_text(STAND_IN)
    (own / "chromium").chmod(0o755)
    code = "import browser; page = browser.Browser(); print(page.folder.name); page.close()"
    env = {**os.environ, "PATH": f"{own}:{os.environ['PATH']}", "TMPDIR": str(place), "PYTHONPATH": str(Path(__file__).parent),
           "PYTHONDONTWRITEBYTECODE": "1", "WORDS": str(words)}  # fmt: skip
    ran = subprocess.run([sys.executable, "-c", code], cwd=tmp_path, env=env, capture_output=True, text=True, timeout=60, check=False)
    assert (ran.returncode, ran.stderr) == (0, "") and ran.stdout.startswith(str(place))
    assert json.loads(words.read_text()) == [*browser.WORDS, f"--user-data-dir={ran.stdout.strip()}", "about:blank"]
    assert sorted(path.name for path in tmp_path.iterdir()) == [place.name, "bin", "words"]


@pytest.fixture(scope="module")
def opened(cli, long_page, tmp_path_factory):
    """A browser, and the paths of a short page and of a long one."""
    if browser.found() is None:
        pytest.skip("Chromium isn't there")
    short, long = (tmp_path_factory.mktemp("pages") / name for name in ("short.html", "long.html"))
    short.write_text(cli("page", stdin=report()).out, encoding="utf-8")
    long.write_text(long_page, encoding="utf-8")
    page = browser.Browser()
    try:
        yield page, str(short), str(long)
    finally:
        page.close()


@pytest.fixture
def page(opened):
    """The short page in the browser, which tells of nothing that goes wrong."""
    shown, short, _ = opened
    shown.ask("Emulation.setEmulatedMedia", features=[])
    shown.open(short)
    shown.told.clear()
    yield shown
    assert shown.told == []


@pytest.mark.alone
def test_long_page_takes_little_time(opened):
    shown, _, path = opened
    shown.told.clear()
    shown.open(path)
    assert shown.value("document.querySelectorAll('.strip').length") > 1
    assert 0 < shown.busy() < SECONDS
    assert shown.told == []


def contrasts(page):
    """The least contrast of a sentence, a note and a command to what is behind them."""
    found = []
    for name in "#told p", ".note", "#list div", "#list b", "h2", "#strips text":
        ink_of = "fill" if name == "#strips text" else "color"
        wanted = (name, ink_of), ("body", "backgroundColor")
        ink, paper = sorted(page.value(f"({LUMINANCE})(getComputedStyle(document.querySelector({one!r})).{what})") for one, what in wanted)
        found.append((paper + 0.05) / (ink + 0.05))
    return min(found)


@pytest.mark.parametrize("width", WINDOWS)
def test_window(page, width):
    page.size(width)
    assert page.value("document.documentElement.scrollWidth") <= width
    sizes = page.value("[...document.querySelectorAll('#strips text')].map((one) => +one.getAttribute('font-size'))")
    assert sizes and min(sizes) >= 9
    assert page.value(MISSING) == []
    room = page.value("Math.max(...[...document.querySelectorAll('.strip svg[data-lane]')].map((one) => one.getBoundingClientRect().right))")
    assert room <= width
    assert contrasts(page) >= CONTRAST


def test_smaller_window_has_more_strips(page):
    strips = "document.querySelectorAll('.strip').length"
    wide = page.value(strips)
    page.size(360)
    assert page.value(strips) > wide


def test_dark(page, opened):
    page.ask("Emulation.setEmulatedMedia", features=[{"name": "prefers-color-scheme", "value": "dark"}])
    page.open(opened[1])
    theme = "document.documentElement.dataset.theme"
    assert page.value(theme) == "dark"
    assert contrasts(page) >= CONTRAST
    page.value("document.getElementById('theme').click()")
    assert page.value(theme) == "light"


def test_hints_stand_in_front(page):
    assert page.value("document.querySelector('#told h2').textContent") == "Hints"


def test_search(page):
    page.value("document.body.focus()")
    page.key("/")
    assert page.value("document.activeElement.id") == "search"
    page.ask("Input.insertText", text="overflow")
    shown = "[...document.querySelectorAll('#list div:not([hidden])')].map((row) => row.textContent)"
    [row] = page.value(shown)
    assert "Overflow" in row
    told = page.value("document.getElementById('count').textContent")
    assert re.fullmatch(r"1 of 10 commands, [1-9]\d* sentences?", told)
    assert told.endswith(" sentence") == told.endswith(" 1 sentence")
    page.key("Escape")
    assert len(page.value(shown)) == 10


@pytest.mark.parametrize("name, left", [("n0", 5), ("c1", 5)])
def test_hiding(page, name, left):
    """A node, and a client, hidden and shown."""
    box = f"document.querySelector('#lanes input[value={name}]')"
    lanes = f"document.querySelectorAll('#strips svg[data-lane={name}]').length"
    before = page.value(lanes)
    page.value(f"{box}.click()")
    rows = page.value("document.querySelectorAll('#list div:not([hidden])').length")
    assert (before > 0, page.value(lanes), rows) == (True, 0, left)
    page.value(f"{box}.click()")
    assert page.value(lanes) == before


def test_zoom(page):
    """Keys and the wheel."""
    zoomed = "document.getElementById('zoomed').textContent"
    page.value("document.activeElement.blur()")
    for key, wanted in ("+", "125 %"), ("+", "156 %"), ("-", "125 %"), ("0", "100 %"):
        page.key(key, key)
        assert page.value(zoomed) == wanted
    page.value("document.getElementById('strips').scrollIntoView()")
    for held, wanted in (0, "100 %"), (2, "115 %"):
        page.mouse("mouseWheel", 300, 300, deltaX=0, deltaY=-100, modifiers=held)
        page.value("new Promise((done) => setTimeout(done, 200))")
        assert page.value(zoomed) == wanted


def middle_of(page, element):
    """The middle of an element in the window, which is scrolled there: rows that come into sight get their height in the next frames."""
    frames = "new Promise((done) => requestAnimationFrame(() => requestAnimationFrame(done)))"
    scroll = f"{element}.scrollIntoView({{block: 'center'}})"
    page.value(f"(async () => {{ for (let i = 0; i < 3; i++) {{ {scroll}; await {frames}; }} }})()")
    return page.value(f"(({{left, right, top, bottom}}) => [(left + right) / 2, (top + bottom) / 2])({element}.getBoundingClientRect())")


def test_click_on_a_mark(page):
    """It marks its command."""
    page.click(*middle_of(page, "[...document.querySelectorAll('#strips [data-shape]')].find((one) => one.textContent.includes('= overflow'))"))
    [row] = page.value("[...document.querySelectorAll('#list .marked')].map((row) => row.textContent)")
    assert "Overflow" in row


def test_click_on_a_command(page):
    """It marks its marks."""
    page.click(*middle_of(page, "[...document.querySelectorAll('#list div')].find((one) => one.textContent.includes('EBADF'))"))
    titles = page.value("[...document.querySelectorAll('#strips .marked title')].map((one) => one.textContent)")
    assert len(titles) == 2 and all("EBADF" in title or title.startswith("line 8") for title in titles)
