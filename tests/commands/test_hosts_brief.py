"""What people read of many hosts: the short report, the page, and little in idle nights. No host
crowds out all others."""
from __future__ import annotations

import os
import re
import shutil
from typing import Any

from tests.lib.answer import Answer

from .units.calls import misused
from .sandbox import CommandTest, END, NEW, OLD, sha256
from .test_fleet import COUNTS, DIFFERS, Fleet
from .test_hosts_report import Hosts, database, four_hosts, line
from .test_deciding import list_database
from .viewers.pages import data_in

ROOM = 100000
SHADOW = line(b"/etc/shadow", b"mine", 2)
FLOOD = 3000
FLOODED = (b"/etc/cron.d/%05d", b"/n%05d")  # High and medium.
SHADOWED = database(line(b"/etc/shadow", b"old"))


class HostsBriefTest(CommandTest):
    def test_neighbour(self) -> None:
        """A host makes a change of two others, and 3,000 of its own: all others are still named."""
        hosts = Hosts(self)
        changed = (SHADOWED, database(SHADOW))
        other = (database(), database(line(b"/zz")))
        flood = (line(path % number, b"x") for path in FLOODED for number in range(FLOOD // 2))
        evil = (SHADOWED, database(SHADOW, *flood, line(b"/usr/bin/z", b"x", perm=b"100755")))
        hosts.compared({"evil1": evil, "good1": changed, "good2": changed, "good3": other})
        self.stub("sendmail", f'cat > "{self.root}/mail"')
        hosts.report("--to", "root")
        mailed = self.read("mail").decode().partition("\n\n")[2]
        for text in (hosts.report("--format=brief").output_text, mailed):
            self.assertRegex(text, r"(?s)evil1, good1 \+1 +changed +/etc/shadow.*\n  good3 .* /zz:")
            left = re.findall(r"(?m)^  and ([\d,]+) more", text)
            listed = len(re.findall("(?m)^  (?:evil1)? +added +/(?:etc/cron.d/|n)", text))
            rest = sum(int(count.replace(",", "")) for count in left)
            self.assertEqual(listed + rest, FLOOD, text)
            self.assertRegex(text, r"(?m)^  and [\d,]+ more on evil1$", "whose are left out")
            self.assertRegex(text, " added +/usr/bin/z: ", "one directory hides no other one")

    def test_shape(self) -> None:
        """At most 80 lines of 80 columns, whatever hosts there are, with names of any length."""
        hosts = Hosts(self)
        paths = [b"/d%02d/" % number + b"n" * (3 * number) for number in range(90)]
        new = database(*(line(path, b"x", perm=b"104755") for path in paths))
        texts = {"h%02d" % number: (OLD, new if number % 3 else OLD) for number in range(24)}
        texts.update({"unknown%02d" % number: (OLD, new) for number in range(5)})
        hosts.compared(texts)
        never = ["never-compared-%s%02d" % ("x" * 150, number) for number in range(20)]
        hosts.list_hosts(*texts, *never)
        text = hosts.report("--format=brief").output_text
        rows = text.rstrip("\n").split("\n")
        self.assertTrue(60 < len(rows) <= 80, len(rows))
        command = rows.index("All hosts, and all changes with their values:")
        self.assertLessEqual(max(map(len, rows[:command])), 80)
        missing = re.findall(r"(?m)^Not compared \((.+)\):\n(?:  .*\n){11}  and (.+) more\n", text)
        self.assertEqual([int(count) - int(more) for count, more in missing], [11], text)
        self.assertIn(": -rwsr-xr-x", text, "a mode")

    def test_links(self) -> None:
        """What differs in a value of each host only, such as a directory's links, is named."""
        hosts = Hosts(self)
        directory = line(b"/d", perm=b"40755")
        pair = (database(directory), database(directory.replace(b" 1 35", b" 9 35")))
        for names, words in ((["www1"], "links 1 -> 9"), (["www1", "www2"], "links")):
            hosts.compared(dict.fromkeys(names, pair))
            report = ("aide-compare hosts report", "--store=store", "--format=brief", "-")
            said = self.call(*report, text="\n".join(names).encode()).output_text
            self.assertRegex(said, rf"(?s)  /d: {words}\n.* -\n\Z")

    def test_end(self) -> None:
        """No text ends with an empty line, whatever its last part is. The brief ends with the
        command for all that has no room, also for hosts that were not compared."""
        hosts = Hosts(self)
        self.stub("sendmail", f'cat > "{self.root}/mail"')
        for names in (["never"], ["never", "www"], ["same"]):
            hosts.compared({"www": (OLD, database(SHADOW)), "same": (OLD, OLD)})
            hosts.list_hosts(*names)
            hosts.report("--to", "root")
            texts = [hosts.report(f"--format={form}").output_text for form in ("brief", "text")]
            if "never" in names:
                texts.append(self.read("mail").decode())
            self.assertRegex(texts[0], r"(?s)\n\nAll hosts, .*:\n    .* hosts report .*\n\Z")
            for text in texts:
                self.assertRegex(text, r"[^\n]\n\Z", names)
                self.assertNotIn("\n\n\n", text, names)


class HostsPageTest(CommandTest):
    def only(self, rows: list[Any], path: str, note: str) -> Any:
        """The one change at a path that has these words beside it."""
        found = [row for row in rows if row[0]["path"] == path and note in row[0]["note"]]
        self.assertEqual(len(found), 1, (path, note, rows))
        return found[0]

    def test_values(self) -> None:
        """The counts, the hosts that were not compared, and changes with hosts and values."""
        hosts = four_hosts(self)
        hosts.list_hosts("www1", "www2", "www3", "www4", "calm", "never")
        self.set_names("commands.hosts_report", MAX_NAMES=2)
        done = hosts.report("--format=page")
        self.assertEqual((done.status, done.errors), (18, b""))
        page = done.output_text
        self.assertTrue(page.startswith("<!doctype html>"), page[:100])
        title = "aide on 6 hosts: 4 differ, 1 not compared"
        self.assertIn(f"<title>{title}</title>", page)
        self.assertIn(f"<pre>{title}", page, "what is there without a script")
        data = data_in(page)
        heading = data["heading"]
        self.assertEqual(heading["title"], title)
        self.assertTrue(heading["outcome"].startswith("5 different changes, the most severe first"))
        counts = [["hosts", 6], ["differ", 4], ["not compared", 1]]
        self.assertEqual(heading["counts"], counts)
        self.assertIn(["Not compared: 1", ["never: was never compared"]], heading["lists"])
        rows = data["rows"]
        self.assertEqual(len(rows), 5, "each change once")
        self.assertIn("on 1 of 6 hosts: www4", rows[0][0]["note"])
        head, values = self.only(rows, "/usr/.x", "on 3 of 6 hosts: www1, www2 and 1 more")
        self.assertEqual(head["per_host"], ["Mtime", "Inode", "Linkcount"])
        self.assertIn("rwsr-xr-x", values["new"]["Perm"][1])
        head, _ = self.only(rows, "/etc/p", "hosts")
        self.assertEqual(head["old_various"], ["Perm", "SHA256"])

    def test_room(self) -> None:
        """A page that has no room for all says so at its top, and one host crowds out no other."""
        hosts = Hosts(self)
        many = database(*(line(b"/n%04d" % number, b"%d" % number) for number in range(300)))
        one = database(line(b"/zz"))
        texts = {"good1": (database(), many), "good3": (database(), one), "same": (OLD, OLD)}
        hosts.compared(texts)
        whole = data_in(hosts.report("--format=page").output_text)
        self.assertEqual((len(whole["rows"]), whole["heading"]["remarks"]), (301, []))
        self.set_names("hosts.hosts_page", MAX_PAGE=ROOM)
        page = hosts.report("--format=page").output_text
        self.assertLessEqual(len(page.encode()), ROOM)
        data = data_in(page)
        (remark,) = data["heading"]["remarks"]
        left = int(remark.partition("no room for ")[2].partition(" more changes")[0])
        self.assertGreater(len(data["rows"]), 20)
        self.assertEqual(len(data["rows"]), 301 - left)
        self.only(data["rows"], "/zz", "on 1 of 3 hosts: good3")
        self.assertIn(self.path("store"), remark.partition("This command prints all: ")[2])

    def test_lists_cut(self) -> None:
        """A list of hosts that has no room for all names the first ones and counts the others."""
        hosts = Hosts(self)
        hosts.compared({"good1": (OLD, OLD)})
        hosts.list_hosts("good1", "lost1", "lost2", "lost3")
        self.set_names("hosts.hosts_page", MAX_LIST=30)
        lists = data_in(hosts.report("--format=page").output_text)["heading"]["lists"]
        self.assertIn(["Not compared: 3", ["lost1: was never compared", "and 2 more"]], lists)


HOSTS = 4
LOGS = b"/var/log/a 36 100644 %d\n"


def idle(size: int) -> bytes:
    return OLD.replace(END, LOGS % size + END)


class HostsQuietTest(CommandTest):
    def prepare(self, old: bytes, new: bytes) -> Fleet:
        """A fleet whose hosts all have the same databases."""
        fleet = Fleet(self)
        shutil.rmtree(self.path("store"))
        names = ["h%02d" % number for number in range(HOSTS)]
        for name in names:
            fleet.put(name, new, old)
        self.hosts = fleet.list_hosts(*names)
        self.write("without", "/var/log/**\n")
        return fleet

    def test_idle(self) -> None:
        """Only logs grew: without a file of paths all hosts differ, with one no line is printed."""
        fleet = self.prepare(idle(5), idle(9))
        said = fleet.compare(self.hosts)
        self.assertEqual(said.status, 4, said)
        summary = "4 hosts: 4 differ, 0 not compared, 0 without differences\n"
        self.assertTrue(said.output_text.endswith(summary), said)
        said = fleet.compare("-q", "--exclude-from", self.path("without"), self.hosts)
        self.assertEqual(said, Answer(b"", b"", 0), "an idle night with what is left out")
        said = fleet.compare("--exclude-from", self.path("without"), self.hosts)
        self.assertEqual(said.output_text.count("; left out: 1 of 1 change\n"), HOSTS, said)
        summary = "4 hosts: 0 differ, 0 not compared, 0 without differences, 4 with silent ones\n"
        self.assertTrue(said.output_text.endswith(summary), said)
        state = fleet.state("h03")
        self.assertIn("left_out=1\n", state, "how many changes are left out")
        self.assertIn(f"new_sha256={sha256(idle(9))}\n", state, "of the whole database")
        report = fleet.call("aide-compare hosts report", "--format=json", self.hosts)
        counted = (report.status, report.output_text.count('"left_out":1'))
        self.assertEqual(counted, (0, HOSTS), report)
        said = fleet.compare("--exclude-from", "none", self.hosts)
        self.assertEqual((said.status, said.output_text), (18, ""), "a missing file of paths")
        self.write("faulty", "/a\nb\n")
        said = fleet.compare("--exclude-from", self.path("faulty"), self.hosts)
        self.assertEqual((said.status, said.output_text), (17, ""), "a faulty list is refused once")
        self.assertTrue(said.error_text.endswith("faulty, line 2: a path begins with /: b\n"), said)

    def test_usual_list(self) -> None:
        """The administrator's list and the lines of the defaults leave entries out on hosts too; a
        trusted pair there is one of this machine."""
        fleet = self.prepare(idle(5), idle(9))
        self.write("etc/without", "/var/log/**\n")
        said = fleet.compare("-q", self.hosts)
        self.assertEqual(said, Answer(b"", b"", 0), "the usual list")
        self.assertEqual(fleet.compare("--no-defaults", self.hosts).status, 4)
        own = list_database(os.fsencode(self.path("etc/without")), b"sha256", b"A" * 43 + b"=")
        self.assertEqual(self.prepare(own, own).compare("-q", self.hosts).status, 0)
        self.assertNotIn(b"has changed", self.read("store/hosts/h01/errors"), "a host's own list")
        fleet = self.prepare(idle(5), idle(9))
        os.remove(self.path("etc/without"))
        self.write("etc/defaults", "--exclude /var/log/a\n--trusted none none\n--max-age 1s\n")
        said = fleet.compare("-q", self.hosts)
        self.assertEqual(said, Answer(b"", b"", 0), "a line of the defaults")
        said = fleet.compare("--exclude", "/x", "--no-defaults", self.hosts)
        self.assertEqual(said.status, 4)

    def test_causes(self) -> None:
        """A host that is down: a later comparison without a fetch does not lose the cause, and is
        no comparison of today."""
        fleet = self.prepare(OLD, NEW)
        cause = '"ssh: connect to host h01 port 22: Connection refused" (ssh: status 255)'
        for had_one in (False, True):
            if had_one:
                fleet.compare(self.hosts)
            self.write("down/h01", "")
            self.assertIn(f"h01 18 {cause}\n", fleet.compare(self.hosts).output_text)
            brief = fleet.call("aide-compare hosts report", "--format=brief", self.hosts)
            self.assertIn(f"  h01: {cause}\n", brief.output_text, "the whole cause")
            said = fleet.compare("--no-fetch", self.hosts)
            fleet.not_compared(cause, said, "h01")
            self.assertNotIn("h01: ", said.output_text, "the name once")
            self.assertEqual(f"; it differs: {COUNTS}" in said.output_text, had_one, said)
            os.remove(self.path("down/h01"))
        said = fleet.compare(self.hosts)
        self.assertIn(f"h01 {DIFFERS}\n", said.output_text, "it is there again")
        os.mkdir(self.path("store/hosts/h01/not-fetched"))
        said = fleet.compare("--no-fetch", self.hosts)
        told = "it was not fetched the last time: its cause cannot be read"
        fleet.not_compared(told, said, "h01")

    def test_list_and_remove(self) -> None:
        """All hosts with their results; and a host that is removed, of which nothing is left."""
        fleet = self.prepare(OLD, NEW)
        fleet.compare(fleet.list_hosts("h01", "h02", "h03"))
        hosts = fleet.list_hosts("h01", "h02", "me@never", "h03")
        said = fleet.call("aide-compare hosts list", hosts)
        self.assertEqual((said.status, said.error_text), (0, ""), said)
        lines = said.output_text.splitlines()
        self.assertTrue(lines[0].startswith(f"h01 {DIFFERS}, 20"), lines)
        self.assertEqual(lines[2], "me@never 18 was never compared")
        words = ("--hosts-file", hosts)
        remove = "aide-compare hosts remove"
        self.assertEqual(fleet.call(remove, "-q", *words, "h02"), Answer(b"", b"", 0))
        self.assertEqual((self.read("hosts"), fleet.state("h02")), (b"h01\nme@never\nh03\n", ""))
        self.assertFalse(os.path.exists(self.path("store/hosts/h02")))
        said = fleet.call(remove, *words, "me@never")
        self.assertEqual((said.status, "-R never, " in said.output_text), (0, True), said)
        said = fleet.call(remove, *words, "h02")
        self.assertEqual((said.status, said.output_text), (18, ""), "nothing is left of it")
        os.mkdir(self.path("store/hosts/h03/odd"))
        self.assertEqual((fleet.call(remove, *words, "h03").status, fleet.state("h03")), (18, ""))
        os.remove(self.path("hosts"))
        os.symlink("/etc/passwd", self.path("hosts"))
        self.assertNotEqual(fleet.call(remove, *words, "root").status, 0)
        for name in ("..", "a/b", "-x"):
            self.assertEqual(misused(self, remove, *words, "--", name)[0], 15, name)
