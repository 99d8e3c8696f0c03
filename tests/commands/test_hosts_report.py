"""The report of many hosts: the same change on some of them, hosts that say nothing, hostile names,
and one mail for all."""
from __future__ import annotations

import base64
import contextlib
import hashlib
import json
import os
import re
import shlex
import shutil
import signal
import subprocess
import time
from collections.abc import Iterator, Sequence
from typing import Any
from unittest import mock

from tests.lib.answer import Answer
from tests.lib.waiting import until

from .made_up import path_of
from .units.calls import misused
from .sandbox import CommandTest, END, NEW, OLD
from .test_fleet import Fleet

SPEC = b"@@begin_db\n@@db_spec name perm uid gid size mtime inode lcount attr sha256 lname\n"
HOSTILE = (
    b"/a%0Aadded%20on%209%20of%209%20hosts:%20File%20/b",
    *(b"/a%1B[31m", b"/a%E2%80%AEb", b"/a%FFb", b"/a%09b", b"/a%00b", b"/a%2541", b"/a%20%20"),
    *(b"/a%20b", b"/a/b", b"/a%01b", b"/a-b", b"/" + b"n" * 6000),
)


Fields = dict[str, Any]
Objects = tuple[Fields, dict[str, Fields], list[Fields]]


def line(
    path: bytes, text: bytes = b"", inode: int = 1, perm: bytes = b"100644", when: int = 1700000000
) -> bytes:
    """The line of a database for a file with this text. A folder has a size, but no digest."""
    digest = base64.b64encode(hashlib.sha256(text).digest()) if perm.startswith(b"10") else b"0"
    attributes, target = (35433483071, text) if perm[:2] == b"12" else (35433483069, b"0")
    rest = b"%b %d 1 %d" % (base64.b64encode(b"%d" % when), inode, attributes)
    return b" ".join([path, perm, b"0 0 %d" % len(text), rest, digest, target])


def database(*lines: bytes) -> bytes:
    ordered = sorted(lines, key=lambda each: decoded(each.split(b" ")[0]).split(b"/"))
    return SPEC + b"".join(each + b"\n" for each in ordered) + END


def decoded(path: bytes) -> bytes:
    return re.sub(b"%([0-9A-F]{2})", lambda found: bytes([int(found.group(1), 16)]), path)


class Hosts(Fleet):
    """A store in which some hosts have been compared."""

    def compared(self, texts: dict[str, tuple[bytes, bytes]], *words: str) -> Answer:
        """Fetches and compares hosts, each given by its old and its new database."""
        for host, (old, new) in texts.items():
            self.put(host, new, old)
        return self.compare(*words, self.list_hosts(*texts))

    def copies(self, host: str, names: list[str]) -> None:
        """More hosts with the report and the state of one."""
        hosts, states = self.sandbox.path("store/hosts/"), self.sandbox.path("store/states/")
        for name in names:
            shutil.copytree(hosts + host, hosts + name)
            shutil.copy(states + host, states + name)
        self.list_hosts(*names)

    def report(self, *words: str, before: Sequence[str] = ()) -> Answer:
        path = self.sandbox.path("hosts")
        return self.call("aide-compare hosts report", *words, path, before=before)

    def objects(self, *words: str) -> Objects:
        """The objects of a report in JSON: the summary, the hosts by name, the changes."""
        said = self.report("--format=json", *words)
        summary, *rest = [json.loads(each) for each in said.output_text.splitlines()] or [{}]
        self.sandbox.assertTrue(said.output_text.isascii(), said)
        self.sandbox.assertEqual(summary.get("lines"), 1 + len(rest), said)
        hosts, changes = rest[: summary["hosts"]], rest[summary["hosts"] :]
        self.sandbox.assertEqual({each["record"] for each in hosts} - {"host"}, set())
        self.sandbox.assertEqual({each["record"] for each in changes} - {"change"}, set())
        self.sandbox.assertEqual(len(changes), summary["changes"])
        return summary, {each["host"]: each for each in hosts}, changes

    @contextlib.contextmanager
    def locked(self, host: str) -> Iterator[None]:
        """Another run is at work on a host meanwhile."""
        lock = self.sandbox.path(f"store/hosts/{host}/lock")
        words = ["flock", lock, "sleep", "100"]
        with subprocess.Popen(words, start_new_session=True) as holder:
            try:
                until(lambda: subprocess.run(["flock", "-n", lock, "true"]).returncode == 1)
                yield
            finally:
                os.killpg(holder.pid, signal.SIGKILL)


def four_hosts(sandbox: CommandTest) -> Hosts:
    """Three hosts with the same new file, one with another text of it, and one as it was."""
    hosts = Hosts(sandbox)
    rest = [line(b"/gone", b"1"), line(b"/d", b"", 5, b"40755")]
    old = database(line(b"/etc/p", b"1"), *rest)

    def new(text: bytes, number: int) -> bytes:
        return database(
            line(b"/etc/p", b"2", number, b"100600"),
            line(b"/d", b"x" * number, 5, b"40700", 1700000000 + number),
            line(b"/usr/.x", text, number, b"104755", 1700000000 + number),
        )

    texts = {"www%d" % number: (old, new(b"evil", number)) for number in (1, 2, 3)}
    texts["www4"] = (database(line(b"/etc/p", b"0"), *rest), new(b"other", 4))
    texts["calm"] = (old, old)
    said = hosts.compared(texts)
    sandbox.assertEqual(said.status, 7, said)
    sandbox.assertIn("5 hosts: 4 differ, 0 not compared, 1 without differences\n", said.output_text)
    return hosts


FLOOD = 300
SHADOW = line(b"/zz/.ssh/authorized_keys", b"mine")


class HostsReportTest(CommandTest):
    def test_text(self) -> None:
        hosts = four_hosts(self)
        self.set_names("commands.hosts_report", MAX_NAMES=2)
        said = hosts.report()
        self.assertEqual((said.status, said.error_text), (7, ""), said)
        first = "aide on 5 hosts: 4 differ, 0 not compared, 1 without differences\n"
        self.assertTrue(said.output_text.startswith(first), said)
        for part in (
            "\nhigh on 3 of 5 hosts: www1, www2 and 1 more\nadded File: /usr/.x\n    size "
            "      4\n",
            "\n    mode       -rwsr-xr-x\n",
            "\n    of each host: mtime, inode, links\n",
            "\nhigh on 1 of 5 hosts: www4\nadded File: /usr/.x\n",
            "on 4 of 5 hosts: www1, www2 and 2 more\nchanged File: /etc/p\n",
            "\n    mode       (various) -> -rw-------\n",
            "\n  www4: 1 added, 1 removed, 2 changed: 4 open",
        ):
            self.assertIn(part, said.output_text)

    def test_objects(self) -> None:
        """What one host has is there with all its values. Of what several have, only those that are
        the same are, and the others are named."""
        changes = four_hosts(self).objects()[2]
        found = {(each["path"], each["hosts"]): each for each in changes}
        one, several = found["/usr/.x", 1], found["/usr/.x", 3]
        self.assertEqual(("per_host" in one, "summary" in one), (False, True))
        self.assertEqual(one["new"]["Mtime"], 1700000004)
        self.assertEqual(several["per_host"], ["Mtime", "Inode", "Linkcount"])
        self.assertFalse({*several["per_host"], "summary"} & {*several["new"], *several})
        self.assertEqual(found["/d", 4]["per_host"], ["Size", "Mtime"])
        changed = found["/etc/p", 4]
        self.assertEqual((changed["old_various"], "old" in changed), (["Perm", "SHA256"], False))
        self.assertEqual(found["/gone", 4]["old"]["Size"], 1)

    def test_wrong(self) -> None:
        hosts = Hosts(self)
        hosts.list_hosts("good1")
        for words in ("--max-age 31d", "x", "--attach-page", "--weekly", "--format=json --to root"):
            given = ("--store", self.path("store"), *words.split(), self.path("hosts"))
            self.assertEqual(misused(self, "aide-compare hosts report", *given)[0], 15, words)

    def test_not_compared(self) -> None:
        """Whatever is not the result of today counts as not compared."""
        hosts = Hosts(self)
        names = ("good1", "unknown", "stale", "ahead", "odd", "busy", "linked")
        hosts.compared(dict.fromkeys(names, (OLD, NEW)))
        for name, seconds in (("stale", -27 * 3600), ("ahead", 7200)):
            fields = json.loads(self.read("store/states/" + name))
            fields["time"] += seconds
            self.write("store/states/" + name, json.dumps(fields))
        self.write("store/states/odd", "status=0\n")
        os.rename(self.path("store/hosts/linked/lines"), self.path("elsewhere"))
        os.symlink(self.path("elsewhere"), self.path("store/hosts/linked/lines"))
        hosts.list_hosts(*names, "never", "a..b")
        with hosts.locked("busy"):
            summary, found, changes = hosts.objects("--time", "1s")
            said = hosts.report("--time", "1s")
        self.assertEqual((summary["not_compared"], summary["differ"], said.status), (7, 2, 18))
        for name, want in (
            ("unknown", "Host key verification failed"),
            ("stale", "was not compared for 27 hours"),
            ("ahead", "in the future"),
            ("odd", "is no state file"),
            ("busy", "another run is at work on it"),
            ("never", "was never compared"),
            ("a..b", "the name of a host"),
        ):
            self.assertIn(found[name]["status"], (15, 18), name)
            self.assertIn(want, found[name]["error"])
            self.assertRegex(said.output_text, f"\n  {re.escape(name)}: .*{want}")
        told = {name for each in changes for name in each["names"]}
        self.assertLessEqual(told, {"good1", "linked"}, "only those of today")
        self.assertFalse(os.path.exists(self.path("store/hosts/never")))
        found = hosts.objects("--max-age", "0", "--time", "1s")[1]
        self.assertEqual(found["stale"]["status"], 7, "any age")

    def test_broken(self) -> None:
        """What cannot be read of a host, as on a damaged disk, keeps out no other one."""
        hosts = Hosts(self)
        hosts.compared({f"good{number}": (OLD, NEW) for number in range(1, 7)})
        for name in ("good1", "good2"):
            os.remove(self.path(f"store/hosts/{name}/lock"))
        os.mkdir(self.path("store/hosts/good1/lock"))
        os.symlink("none", self.path("store/hosts/good2/lock"))
        shutil.rmtree(self.path("store/hosts/good3"))
        self.write("store/hosts/good3", "")
        os.remove(self.path("store/hosts/good4/lines"))
        os.symlink("/proc/self/mem", self.path("store/hosts/good4/lines"))
        odd = self.read("store/hosts/good6/lines").replace(b'"Perm":"0', b'"Perm":"x')
        self.write("store/hosts/good6/lines", odd)
        summary, found, changes = hosts.objects()
        counts = [summary[key] for key in ("differ", "not_compared", "not_listed", "changes")]
        self.assertEqual(counts, [3, 3, 2, 4], found)
        self.assertEqual({name for each in changes for name in each["names"]}, {"good5"})
        self.assertEqual([found[f"good{at}"]["report"] for at in (4, 6)], ["unreadable"] * 2)
        self.assertIn("Is a directory", found["good1"]["error"])
        self.assertIn("Too many levels", found["good2"]["error"])
        self.assertTrue(found["good3"]["error"])

    def test_other_run(self) -> None:
        """The lines that another run has kept are not believed to be those of the state."""
        hosts = Hosts(self)
        hosts.compared({"many": (OLD, NEW), "one": (database(), database(line(b"/a", b"1")))})
        lines = [self.path(f"store/hosts/{name}/lines") for name in ("one", "many")]
        shutil.copyfile(*lines)
        reports = {name: host["report"] for name, host in hosts.objects()[1].items()}
        self.assertEqual(reports, {"one": "whole", "many": "unreadable"})

    def test_hostile_names(self) -> None:
        """Names of hosts: in the order of paths, exact in JSON, escaped, and last in a line."""
        hosts = Hosts(self)
        new, one, two = (line(b"/l", text, 1, b"120777") for text in (b"new", b"%ff", b"old"))
        whole = database(new, *(line(path, path) for path in HOSTILE))
        hosts.compared({"good1": (database(one), whole), "good2": (database(two), whole)})
        changes = hosts.objects()[2]
        wanted = sorted(map(decoded, (*HOSTILE, b"/l")), key=lambda path: path.split(b"/"))
        self.assertEqual([path_of(each) for each in changes], wanted)
        self.assertEqual({each["hosts"] for each in changes}, {2})
        output = hosts.report().output_text
        self.assertNotRegex(output, "[\x00-\x09\x0b-\x1f\x7f\u202e]")
        self.assertLess(max(map(len, output.split("\n"))), 6000)
        starts = re.findall(r"(?m)^\w+ on (\d+) of (\d+) hosts: ", output)
        self.assertEqual(starts, [("2", "2")] * len(wanted), "no name begins a line")

    def mailed(self, hosts: Hosts, *words: str) -> str:
        """The mail about all hosts. The command prints nothing."""
        said = hosts.report("--to", "root", *words)
        self.assertEqual(said, Answer(b"", b"", 18))
        return self.read("mail").decode()

    def test_mail(self) -> None:
        """One mail for all hosts, bounded; none without differences; an error if it fails."""
        hosts = Hosts(self)
        self.stub("sendmail", 'cat > "%s"' % self.path("mail"))
        hosts.compared({"calm": (OLD, OLD)})
        self.assertEqual(hosts.report("--to", "root"), Answer(b"", b"", 0))
        self.assertFalse(os.path.exists(self.path("mail")))
        today, other = time.strftime("%a"), time.strftime("%a", time.localtime(time.time() + 86400))
        self.assertEqual(hosts.report("--to", "root", "--weekly", other), Answer(b"", b"", 0))
        self.assertFalse(os.path.exists(self.path("mail")), "the heartbeat is due on another day")
        self.assertEqual(hosts.report("--to", "root", f"--weekly={today}"), Answer(b"", b"", 0))
        heartbeat = self.read("mail").decode()
        self.assertIn("\nSubject: aide on 1 host: nothing to read\n", heartbeat)
        self.assertIn("\n1 host: 0 differ, 0 not compared, 1 without differences\n", heartbeat)
        pair = (database(), database(*(line(b"/n%04d" % number) for number in range(500))))
        same = (OLD, OLD)
        hosts.compared({"calm": same, "good1": pair, "good2": pair, "unknown": same})
        title = "aide on 4 hosts: 2 differ, 1 not compared"
        head, _, text = self.mailed(hosts).partition("\n\n")
        self.assertTrue(head.startswith("To: root\n"), head)
        self.assertIn(f"\nSubject: {title}\n", head)
        self.assertEqual(hosts.report("--format=brief").output_text, text)
        text = self.mailed(hosts, "--max-age", "2d")
        command = text.rpartition("with their values:\n")[2].replace("\\\n", " ")
        self.assertEqual(shlex.split(command)[5:-1], ["--max-age", "172800"])
        self.assertNotIn("--max-age", self.mailed(hosts, "--max-age", "6h"), "it is read later")
        done = subprocess.run(["sh", "-c", command], capture_output=True, env=self.environment())
        listed = done.stdout.count(b" on 2 of 4 hosts: good1, good2\nadded File: /n")
        self.assertEqual(listed, 500, "the command prints all")
        self.set_names("commands.hosts_report", MAX_MAILED_PAGE=1)
        text = self.mailed(hosts, "--attach-page").replace("=\n", "")
        self.assertIn(f"<title>{title}</title>", text)
        self.assertIn("This page has no room for 500 more changes", text)
        self.patch("commands.hosts_report.hosts_page", mock.Mock(side_effect=OSError(5, "x")))
        self.assertEqual(hosts.report("--to", "root", "--attach-page").status, 18)
        self.assertIn(": no report of hosts\n", self.read("mail").decode())
        none = self.write("none", b"# None.\n")
        said = hosts.call("aide-compare hosts report --to root", none)
        self.assertEqual((said.status, said.output_text), (18, ""))
        mail = self.read("mail").decode()
        self.assertRegex(mail, r"(?s)Subject: aide on \S+: no report of hosts\n.*\nno host is in")
        self.stub("sendmail", "exit 75")
        said = hosts.call("aide-compare hosts report --to root", none)
        self.assertRegex(said.error_text, r"(?s)cannot send the mail.*\n\S+ hosts report: no host")
        said = hosts.report("--to", "root")
        self.assertEqual(said.status, 18)
        self.assertIn("cannot send the mail: status 75", said.error_text)

    def test_severe(self) -> None:
        """A flood before it in the order of paths hides no severe change of the same host."""
        hosts = Hosts(self)
        self.set_names("hosts.host_comparison", MAX_KEPT=20 << 10)
        flood = (line(b"/a%04d" % number, b"%d" % number) for number in range(FLOOD))
        old = database(line(b"/a"))
        long = database(line(b"/a"), *flood, SHADOW)
        hosts.compared({"long": (old, long), "short": (old, database(line(b"/a", b"2")))})
        summary, found, changes = hosts.objects()
        host = found["long"]
        self.assertEqual((host["report"], found["short"]["report"]), ("cut", "whole"))
        self.assertTrue(10 < host["listed"] < FLOOD, host)
        paths = [each["path"] for each in changes if "long" in each["names"]]
        self.assertEqual(len(paths), host["listed"], "all that is kept")
        self.assertIn("/zz/.ssh/authorized_keys", paths, "the severe one is kept")
        self.assertEqual((host["open"], host["high"], summary["cut"]), (FLOOD + 1, 1, 1))
        words = "long: its changes were cut; "
        words += f"{host['listed']} of {FLOOD + 1} changes are listed; 1 of all are high\n"
        self.assertIn(words, hosts.report().output_text)
        self.assertLess(os.stat(self.path("store/hosts/long/lines")).st_size, 21 << 10)
        said = hosts.compare_one("long", "--quiet")
        ended = (said.status, said.output_text.count("\n"), said.error_text)
        self.assertEqual(ended, (1, 2, ""), said)
