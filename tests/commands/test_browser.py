"""The page of aide-compare page in a headless Chromium: what a reader does, and what it shows."""
from __future__ import annotations

import json
import os
import time
import unittest

from tests.commands.made_up import Host, Package, time_of
from tests.commands.sandbox import CommandTest
from tests.commands.viewers.browser import CHROMIUM, Browser
from tests.lib.program_test import slow

FIRST, SECOND = 1767225600, 1795500000
FOLDERS = {
    b"/usr/bin": "openssl",
    b"/usr/lib/x86_64-linux-gnu": "libssl3",
    b"/usr/lib/python3/dist-packages/apt": "python3-apt",
    b"/usr/share/doc/openssl": "openssl-doc",
    b"/usr/share/man/man1": "openssl-man",
    b"/var/lib/dpkg/info": "",
}
# How many changes the page of very many has.
CHANGES = int(os.environ.get("AIDE_CHANGES") or 3000)
MOST_BYTES, MOST_SECONDS, MOST_ANSWER = 20000000, 3, 0.2

READY = "document.getElementById('view') !== null && !document.getElementById('view').hidden"
ENTRY = "#list > li:not(.section)"
FOUND = "document.getElementById('found').textContent"
PATHS = "[...document.querySelectorAll('#list code')].map((one) => one.textContent)"
FOCUS = "document.activeElement"
OPENED = "#list details[open] > table"
# The facts beside the added program, and the least width of a directory's name.
FACTS = """[...document.querySelectorAll('#list li')].find(
  (one) => one.textContent.includes('sbin/.x')).querySelector('i').textContent.trim()"""
NARROW = """Math.min(...[...document.querySelectorAll('#tree > li > .folder code')].map(
  (one) => one.clientWidth || one.offsetWidth))"""
# Opens all directories; what the tree then says of each; and the entries that are listed.
UNFOLD = """for (let folds; (folds = [...document.querySelectorAll(
  '[aria-expanded="false"] > .folder > .fold')]).length;) folds.forEach((fold) => fold.click());"""
LABELS = """[...document.querySelectorAll('#tree [role=treeitem]')].map(
  (one) => one.getAttribute('aria-label'))"""
CUT_OFF = """[...document.querySelectorAll('body, nav, .numbers')].filter(
  (one) => one.scrollWidth > one.clientWidth).length"""
ORDER = """{ const order = document.getElementById('order'); order.value = 'size';
  order.dispatchEvent(new Event('change')); }"""
SEARCH = """{ const field = document.getElementById('search'); field.value = %s;
  field.dispatchEvent(new Event('input')); }"""
# The same, until it is answered.
SEARCHED = """(async () => { const before = document.getElementById('found').textContent; %s
  while (document.getElementById('found').textContent === before)
    await new Promise((done) => setTimeout(done, 20));
  document.body.offsetHeight; })()"""
# The buttons that are pressed.
PRESSED = """[...document.querySelectorAll('.choices [aria-pressed=true]')].map(
  (one) => one.lastChild.textContent.trim())"""
DARK = [{"name": "prefers-color-scheme", "value": "dark"}]
ADDED = (
    '<script>document.title = "ran"</script><p id="loud" style="color: red" onclick="1">'
    '<img src="file:///etc/hostname">'
)


def number_of(selector: str) -> str:
    return f"document.querySelectorAll({json.dumps(selector)}).length"


SHOWN = number_of(ENTRY)


def upgrade() -> Host:
    """Upgrades and an intruder: an entry of each severity and kind, and 260 of packages."""
    host = Host()
    files: dict[str, dict[bytes, bytes]] = {}
    for number in range(260):
        folder = list(FOLDERS)[number % len(FOLDERS)]
        path, old, new = b"%s/item-%03d" % (folder, number), b"%d" % number, b"two %d" % number
        if FOLDERS[folder] == "":
            new = old
        if number % 20 != 1:
            host.old.file(path, old, mtime=time_of(FIRST))
        if number % 20 != 0:
            host.new.file(path, new, mtime=time_of(SECOND))
            files.setdefault(FOLDERS[folder], {})[path] = new
    host.packages = [Package(name, "3.0-1", texts) for name, texts in files.items() if name]
    host.old.file(b"/etc/passwd", b"1" * 2811, mtime=time_of(FIRST))
    host.new.file(b"/etc/passwd", b"2" * 2874, mtime=time_of(SECOND))
    host.old.file(b"/etc/ssh/sshd_config", b"1", 0o100600)
    host.new.file(b"/etc/ssh/sshd_config", b"2")
    host.new.file(b"/etc/cron.d/backup", b"2" * 97)
    host.old.file(b"/etc/motd", b"1")
    host.new.file(b"/usr/local/sbin/.x", b"2" * 18344, 0o104755)
    return host


@slow
@unittest.skipUnless(CHROMIUM, "not installed: chromium")
class BrowserTest(CommandTest):
    """All have one browser: a page of the command keeps nothing in it."""

    browser: Browser

    @classmethod
    def setUpClass(cls) -> None:
        cls.browser = Browser()
        cls.addClassCleanup(cls.browser.close)

    def setUp(self) -> None:
        super().setUp()
        self.browser.ask("Emulation.clearDeviceMetricsOverride")

    def tearDown(self) -> None:
        self.assertEqual(self.browser.faults, [], "errors, and breaches of the content policy")

    def shows(self, expression: str, wanted: object) -> None:
        """An expression of the page's language comes to this, soon."""
        for _ in range(200):
            given = self.browser.value(expression)
            if given == wanted:
                break
            time.sleep(0.05)
        self.assertEqual(given, wanted, expression)

    def page(self, host: Host) -> str:
        """The file of the page of a host."""
        host.write(self)
        text = self.call("aide-compare page", "host-old.db", "host-new.db").output
        return self.write("page.html", text)

    def open(self, path: str, address: str = "") -> None:
        """Opens a page and waits until its entries are there."""
        self.browser.open("/proc/version")
        self.browser.open(path + address)
        self.shows(READY, True)

    def click(self, selector: str, text: str = "") -> None:
        """Presses the first element that a selector finds, with a text in it."""
        found = f"[...document.querySelectorAll({json.dumps(selector)})].find("
        has_text = f"(one) => one.textContent.includes({json.dumps(text)})"
        self.browser.value(f"{found}{has_text}).click()")

    def search(self, text: str) -> None:
        self.browser.value(SEARCH % json.dumps(text))

    def send(self, event: str) -> None:
        self.browser.value(f"window.dispatchEvent(new Event('{event}'))")

    def total(self) -> int:
        return int(self.browser.value(FOUND).split()[0])

    def test_folders(self) -> None:
        """The tree has all directories of the entries, each with its counts. One that has nothing
        but one directory in it is shown with that one."""
        host = Host()
        for path in (b"/etc/one", b"/etc/cron.d/one", b"/usr/lib/x/one", b"/usr/lib/x/two"):
            host.new.file(path)
        host.new.directory(b"/usr/share")
        host.old.file(b"/usr/share/doc/gone")
        self.open(self.page(host), "#order=path")
        self.browser.value(UNFOLD)
        wanted = ["etc/, 2 added", "cron.d/, 1 added", "usr/, 3 added, 1 removed"]
        wanted += ["lib/x/, 2 added", "share/, 1 added, 1 removed", "doc/, 1 removed"]
        self.shows(LABELS, wanted)

    def test_filters(self) -> None:
        self.open(self.page(upgrade()))
        self.shows(SHOWN, 100)
        total = self.total()
        self.click("#next")
        self.shows("document.getElementById('place').textContent", "Page 2 of 3")
        self.click("#kind button", "removed")
        button = "document.querySelector('#kind button.removed small')"
        count = self.browser.value(f"Number({button}.textContent)")
        self.shows(FOUND, f"{count} of {total} entries")
        self.shows(number_of("#list b.removed"), count)
        self.shows(number_of("#list b[class]:not(.removed)"), 0)
        self.click("#clear")
        self.search("ETC/")
        self.shows(FOUND, f"4 of {total} entries")
        self.shows(number_of("#tree > li"), 1)
        self.search("")
        self.shows(FOUND, f"{total} entries")
        self.click("#tree .folder", "etc/")
        self.shows(FOUND, f"4 of {total} entries in /etc/")
        self.click("#unfold")
        self.shows(number_of("#list li > details[open] > table"), 4)

    def test_entries(self) -> None:
        """What matters most comes first; digests and exact values open on demand; a new file shows
        its mode."""
        self.open(self.page(upgrade()))
        first = "/usr/local/sbin/.x /etc/passwd /etc/ssh/sshd_config /etc/cron.d/backup"
        self.shows(PATHS + ".slice(0, 4)", first.split())
        heading = "document.querySelector('#list h2').textContent"
        self.shows(heading, "Open, severity high: 4 entries")
        self.shows(FACTS, "-rwsr-xr-x, root:root, 18344 bytes")
        self.click("#list summary", "etc/passwd")
        titles = f"[...document.querySelectorAll('{OPENED} th[scope=row]')]"
        self.shows(f"{titles}.map((one) => one.textContent)", ["size", "mtime", "SHA256"])
        self.click(f"{OPENED} + details > summary")
        self.shows(number_of(f"{OPENED} + details[open] th[scope=row]"), 1)
        exact = f"document.querySelector('{OPENED} td details').textContent"
        self.shows(exact, f"2026-01-01 00:00:00 UTC{FIRST}")

    def test_screens(self) -> None:
        """The first five entries are on the first screen of a desk and of a hand, nothing is cut
        off, and on a narrow one nothing is scrolled sideways."""
        self.open(self.page(upgrade()))
        bottom = f"document.querySelectorAll('{ENTRY}')[4].getBoundingClientRect().bottom"
        for width, height in ((1280, 900), (400, 820)):
            self.browser.resize(width, height)
            self.assertLessEqual(self.browser.value(bottom), height, width)
            self.shows(CUT_OFF, 0)
        self.browser.resize(320, 900)
        self.shows("document.documentElement.scrollWidth <= 320", True)
        self.assertGreaterEqual(self.browser.value(NARROW), 150, "names of directories have room")

    def test_address(self) -> None:
        """The address has what was asked for, and a page that is opened with it shows that."""
        path = self.page(upgrade())
        self.open(path)
        self.click("#severity button", "high")
        self.search("sshd")
        self.shows("location.hash", "#severity=high&path=sshd")
        self.browser.value(ORDER)
        self.shows("location.hash", "#severity=high&path=sshd&order=size")
        self.open(path, "#kind=added&order=size&standing=open&severity=high")
        self.shows(PATHS, ["/usr/local/sbin/.x", "/etc/cron.d/backup"])
        self.shows(PRESSED, ["open", "high", "added"])
        self.browser.value("location.hash = 'directory=/etc&page=1'")
        self.shows(FOUND + ".slice(0, 2)", "4 ")

    def test_keyboard(self) -> None:
        self.open(self.page(upgrade()))
        press = self.browser.press
        press("Tab", 9)
        self.shows(FOCUS + ".className", "skip")
        press("Enter", 13)
        self.shows(FOCUS + ".id", "content")
        self.browser.value("document.querySelector('.about summary').focus()")
        press("Tab", 9)
        self.shows(FOCUS + ".closest('#standing') !== null", True)
        press("ArrowRight", 39)
        self.shows(FOCUS + ".textContent.includes('recorded')", True)
        press("Enter", 13)
        self.shows(FOCUS + ".getAttribute('aria-pressed')", "true")
        press("Enter", 13)
        stops = 0
        in_tree = f"document.getElementById('tree').contains({FOCUS})"
        while stops < 40 and not self.browser.value(in_tree):
            press("Tab", 9)
            stops += 1
        self.assertIn(stops, range(1, 7), "few stops before the tree")
        was = self.browser.value(FOCUS + ".node.path")
        press("ArrowDown", 40)
        self.assertNotEqual(self.browser.value(FOCUS + ".node.path"), was, "the next directory")
        press("Home", 36)
        press("Enter", 13)
        self.shows(FOCUS + ".getAttribute('aria-selected')", "true")
        self.shows(number_of('#tree [tabindex="0"]'), 1)
        self.browser.value("document.querySelector('#list summary').focus()")
        was = self.browser.value(FOCUS + ".parentElement.open")
        press("Enter", 13)
        self.shows(FOCUS + ".parentElement.open", not was)

    def test_printing(self) -> None:
        """All entries that fit are printed, and not only those of a page."""
        self.open(self.page(upgrade()), "#kind=changed")
        total = self.total()
        self.assertGreater(total, 200)
        self.send("beforeprint")
        self.shows(SHOWN, total)
        asked = "document.getElementById('asked').textContent"
        self.shows(asked, "Only entries with: kind changed.")
        self.shows("document.querySelector('.about').open", True)
        self.browser.ask("Emulation.setEmulatedMedia", media="print", features=DARK)
        self.shows("getComputedStyle(document.body).color", "rgb(28, 33, 40)")
        self.browser.ask("Emulation.setEmulatedMedia", media="", features=[])
        self.send("afterprint")
        self.shows(SHOWN, 100)

    def test_policy(self) -> None:
        """A script or a style that somebody added does not run."""
        text = self.read(os.path.basename(self.page(upgrade()))).decode()
        path = self.write("added.html", text.replace("</header>", "</header>" + ADDED))
        self.browser.open(path)
        self.shows("document.title === 'ran'", False)
        red = "getComputedStyle(document.getElementById('loud')).color === 'rgb(255, 0, 0)'"
        self.shows(red, False)
        breaches = [one for one in self.browser.faults if "Content Security Policy" in one]
        self.assertGreaterEqual(len(breaches), 3)
        self.browser.faults.clear()

    def test_many(self) -> None:
        """The processor's time that a page of many changes takes to be there, and to answer."""
        host = Host()
        for number in range(CHANGES):
            name = b"/usr/lib/package-%04d/file-%03d.so" % (number // 200, number % 200)
            host.old.file(name, b"%d" % number, mtime=time_of(FIRST))
            host.new.file(name, b"two %d" % number, mtime=time_of(SECOND))
        path = self.page(host)
        self.assertLess(os.path.getsize(path), MOST_BYTES)
        self.browser.open("/proc/version")
        worked = self.browser.worked()
        self.open(path)
        self.assertLess(self.browser.worked() - worked, MOST_SECONDS)
        searches = [SEARCHED % SEARCH % f'"{text}"' for text in ("package-0001", "zzz", "/file-07")]
        for expression in (*searches, "document.querySelector('#kind button').click()"):
            worked = self.browser.worked()
            self.browser.value(expression)
            self.assertLess(self.browser.worked() - worked, MOST_ANSWER, expression)
