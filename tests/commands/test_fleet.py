"""Many hosts against one that was taken over: its report, bytes, silence; and runs cut short."""
from __future__ import annotations

import gzip
import os
import re
import signal
import subprocess
import time
from collections.abc import Sequence
from typing import Any
from unittest import mock

from tests.lib.answer import Answer
from tests.lib.waiting import is_alive, until

from .units.calls import misused
from .sandbox import AS_NOBODY, CommandTest, END, NEW, OLD, sha256

COMPARE = "aide-compare hosts compare"
COUNTS = "1 added, 1 removed, 2 changed"
DIFFERS = f"7 {COUNTS}: 4 open of 4 changes"
PAIR = ("good1", "good2", "good3", "good4", "good5", "good6")
# It asks for a key where no way to log in is tried, and knows it then.
SSH = '''words=$*
while [ "${1#-}" != "$1" ]; do [ "$1" = -o ] && shift; shift; done
case $words in
    *PreferredAuthentications=none*)
        echo "$1 KEY" >> "ROOT/known_hosts"
        echo "$words" > ROOT/asked
        [ "$1" != open ] || exec sleep 300
        exit 255 ;;
esac
refused="ssh: connect to host $1 port 22: Connection refused"
[ ! -e "ROOT/down/$1" ] || { echo "$refused" >&2; exit 255; }
case $1 in
    endless) exec cat /dev/zero ;;
    slow) while :; do printf x; sleep 0.1; done ;;
    silent) echo $$ > ROOT/ssh.pid; exec sleep 300 ;;
    unknown) printf 'Host key verification failed.\\r\\n' >&2; exit 255 ;;
    changed) printf 'REMOTE HOST IDENTIFICATION HAS CHANGED!\\n' >&2
        printf 'Host key verification failed.\\n' >&2; exit 255 ;;
    asking) read -r answer < /dev/tty; exit 1 ;;
    denied) echo "root@denied: Permission denied (publickey)." >&2; exit 255 ;;
    liar) echo '0 no differences" (ssh: status 0)' >&2; exit 1 ;;
    coloured) printf 'a\\033[31mb\\302\\233c\\n' >&2; exit 1 ;;
    killer*) kill -9 $PPID; exit 1 ;;
esac
exec cat "ROOT/remote/$1"'''


def hostile() -> bytes:
    """Some kB of gzip, a database of 18 MB, lines of twice that: links of control bytes."""
    return gzip.compress(links(b"%01" * 100000))


def links(name: bytes) -> bytes:
    lines = b"".join(b"/l%03d 7 120777 %s\n" % (number, name) for number in range(60))
    return b"@@begin_db\n@@db_spec name attr perm lname\n" + lines + END


class Fleet:
    """The commands as they are installed, and a store with hosts that a small program in ssh's
    place sends for. Each trial begins with its own, so that it can be run by itself."""

    def __init__(self, sandbox: CommandTest) -> None:
        self.sandbox = sandbox
        sandbox.stub("ssh", SSH.replace("ROOT", sandbox.root))
        for host in PAIR:
            self.put(host, NEW)

    def put(self, host: str, text: bytes, baseline: bytes | None = OLD) -> None:
        self.sandbox.write("remote/" + host, text)
        if baseline is not None:
            self.sandbox.write("store/hosts/%s/aide.db" % host, baseline, 0o600)

    def list_hosts(self, *hosts: str) -> str:
        """The file of hosts, which has these names."""
        return self.sandbox.write("hosts", "".join("%s\n" % host for host in hosts))

    def words(self, command: str, *words: str) -> list[str]:
        return self.sandbox.command(command, "--store", self.sandbox.path("store"), *words)

    def start(self, words: Sequence[str], **more: Any) -> subprocess.Popen[bytes]:
        places = (self.sandbox.path("stubs"), self.sandbox.path("bin"), os.environ["PATH"])
        environment = self.sandbox.environment(PATH=":".join(places))
        more.update(self.sandbox.as_child(list(words), environment))
        return subprocess.Popen(
            words,
            cwd=self.sandbox.root,
            env=environment,
            stdin=subprocess.DEVNULL,
            stdout=subprocess.PIPE,
            stderr=subprocess.PIPE,
            **more,
        )

    def call(self, command: str, *words: str, before: Sequence[str] = ()) -> Answer:
        run = self.start([*before, *self.words(command, *words)])
        output, errors = run.communicate(timeout=900)
        return Answer(output, errors, run.returncode)

    def compare(self, *words: str) -> Answer:
        return self.call(COMPARE, *words)

    def compare_one(self, host: str, *words: str) -> Answer:
        return self.compare(*words, self.sandbox.write("one-host", f"{host}\n"))

    def state(self, host: str) -> str:
        """The values of a state file, a line each; nothing if there is none."""
        values = self.sandbox.state("store/states/" + host)
        return "".join(f"{key}={value}\n" for key, value in values.items())

    def not_compared(self, told: str, said: Answer, host: str, status: int = 18) -> None:
        """A host was not compared, which its line and its state say with this text."""
        self.sandbox.assertEqual(said.status, status, said)
        line = re.search(f"(?m)^{re.escape(host)} {status} (.*)$", said.output_text)
        self.sandbox.assertIn(told, line.group(1) if line else "", said)
        state = self.state(host)
        self.sandbox.assertIn(f"\nstatus={status}\n", state)
        self.sandbox.assertIn(told, state)


class FleetTest(CommandTest):
    def setUp(self) -> None:
        super().setUp()
        self.fleet = Fleet(self)

    def check_pair(self, said: Answer) -> None:
        """All hosts that are not hostile are compared."""
        for host in PAIR:
            self.assertIn(f"{host} {DIFFERS}\n", said.output_text, said)

    def test_hostile(self) -> None:
        """One host sends some kB whose changes have many MB: its lines are cut."""
        fleet = self.fleet
        fleet.put("evil", hostile(), links(b"x"))
        hosts = fleet.list_hosts("evil", *PAIR)
        self.set_names("hosts.host_comparison", MAX_KEPT=2 << 20)
        said = fleet.compare("--max-size", "200M", "--jobs", "3", hosts)
        self.assertEqual(said.status, 7, said)
        self.check_pair(said)
        line = "evil 4 0 added, 0 removed, 60 changed: 60 open of 60 changes\n"
        self.assertIn(line, said.output_text)
        self.assertIn("\nchanged=60\n", fleet.state("evil"))
        folder = self.path("store/hosts/evil")
        size = sum(os.stat(f"{folder}/{name}").st_size for name in os.listdir(folder))
        self.assertLess(size, 3 << 20, "what it takes of the store")
        end = self.read("store/hosts/evil/lines").splitlines()[-1]
        self.assertIn(b'"open":60,', end)
        self.assertNotIn(b'"listed":60', end, "its lines say that they were cut")

    def test_bomb(self) -> None:
        """A database has 64 MB at most, without --max-size."""
        self.fleet.put("bomb", gzip.compress(bytes(80 << 20), 1))
        told = "has more than 67108864 bytes"
        self.fleet.not_compared(told, self.fleet.compare_one("bomb"), "bomb")

    def test_small_store(self) -> None:
        """A store of 40 MB and no option: the host that sends without end gets a share of the room,
        and the others theirs. Where nothing can be mounted, MAX_SENT is what limits it."""
        with self.mounted("store", "-t", "tmpfs", "-o", "size=40m,mode=755", "none") as is_small:
            fleet = Fleet(self)
            fleet.put("endless", OLD)
            self.set_names("hosts.fetching", MAX_SENT=1 << 30 if is_small else 3 << 20)
            said = fleet.compare("--time", "60s", fleet.list_hosts("endless", *PAIR))
            self.check_pair(said)
            fleet.not_compared("(1 GiB, or a share of free room)", said, "endless")
            left = set(os.listdir(self.path("store/hosts/endless")))
            self.assertEqual(left - {"aide.db", "lock", "not-fetched"}, set(), "nothing of it")

    def test_full(self) -> None:
        """No state says on a full disk that all is well because it was so before."""
        self.fleet.put("good1", OLD)
        self.assertEqual(self.fleet.compare_one("good1").status, 0)
        full = ["sh", "-c", 'ulimit -f 0; exec "$@"', "sh"]
        hosts = self.path("one-host")
        said = self.fleet.call(COMPARE, hosts, before=full)
        self.assertIn("good1 18 what it sent was not written: is the disk full?", said.output_text)
        self.assertIn("good1: its state cannot be written", said.error_text)
        said = self.fleet.call("aide-compare hosts report", hosts)
        self.assertIn("good1: its state is missing\n", said.output_text)
        self.assertEqual(said.status, 18, said)

    def test_slow(self) -> None:
        for host in ("slow", "silent"):
            self.fleet.put(host, OLD)
            begun = time.monotonic()
            said = self.fleet.compare_one(host, "--time", "1s")
            self.fleet.not_compared("after 1 seconds", said, host)
            self.assertIn("error=%s: had not sent" % host, self.fleet.state(host))
            self.assertLess(time.monotonic() - begun, 40)

    def test_late(self) -> None:
        """A comparison that takes too long is ended, and the state says so."""
        self.set_names("hosts.workers", GRACE=1)
        self.patch("hosts.host_comparison.keep_comparison", lambda *_: time.sleep(60))
        begun = time.monotonic()
        self.fleet.put("good1", OLD)
        said = self.fleet.compare_one("good1", "--time", "1s")
        self.fleet.not_compared("was not compared within 1 seconds", said, "good1")
        self.assertLess(time.monotonic() - begun, 40)

    def test_ended(self) -> None:
        """A signal ends the command at once, and ssh with it."""
        hosts = self.fleet.list_hosts("silent", "good1")
        pid = self.path("ssh.pid")
        for number in (signal.SIGTERM, signal.SIGHUP, signal.SIGKILL):
            self.write("ssh.pid", "")
            run = self.fleet.start(self.fleet.words(COMPARE, hosts))
            until(lambda: self.read("ssh.pid").strip())
            ssh = int(self.read(pid))
            begun = time.monotonic()
            run.send_signal(number)
            run.communicate(timeout=60)
            self.assertEqual(run.returncode, -number, number)
            self.assertLess(time.monotonic() - begun, 30, number)
            self.assertTrue(until(lambda: not is_alive(ssh)), number)

    def test_told(self) -> None:
        """What people see of a host's bytes, and processes that end without an answer."""
        failed = '"Host key verification failed." (ssh: status 255); '
        unknown = failed + "is its key in known_hosts?"
        changed = failed + "its key differs from the one in known_hosts: if that is right, "
        changed += "ssh-keygen -R changed"
        coloured = r'"a\033[31mb\302\233c" (ssh: status 1)'
        liar = '"0 no differences\' (ssh: status 0)" (ssh: status 1)'
        causes = {"unknown": unknown, "changed": changed, "coloured": coloured, "liar": liar}
        for host, told in causes.items():
            self.fleet.put(host, OLD)
            said = self.fleet.compare_one(host)
            self.fleet.not_compared(told, said, host)
            self.assertTrue(said.output_text.split("\n")[0].endswith(told), said)
        killers = [f"killer{number}" for number in range(16)]
        for host in killers:
            self.fleet.put(host, OLD)
        hosts = self.fleet.list_hosts("good1", *killers, "good2")
        few = ["sh", "-c", 'ulimit -n 32; exec "$@"', "sh"]
        said = self.fleet.call(COMPARE, "--jobs=2", hosts, before=few)
        self.fleet.not_compared("ended without an answer", said, "killer9")
        self.assertIn(f"good2 {DIFFERS}\n", said.output_text, "files are closed after each")
        self.assertEqual(len(said.output_text.splitlines()), 19, said)
        self.patch("hosts.fetching.transfer", mock.Mock(side_effect=MemoryError))
        self.fleet.not_compared("out of memory", self.fleet.compare_one("good1"), "good1", 22)

    def test_unread(self) -> None:
        """Where no line can be printed, and none of the canary, all hosts are compared."""
        hosts = self.fleet.list_hosts("denied", *PAIR)
        full = ["sh", "-c", 'exec "$@" > /dev/full', "sh"]
        said = self.fleet.call(COMPARE, "--canary=denied", hosts, before=full)
        told = said.error_text.count("cannot write standard output")
        self.assertEqual((said.status, told), (18, 1), said)
        for host in PAIR:
            self.assertIn("\nstatus=7\n", self.fleet.state(host), host)

    def test_wrong(self) -> None:
        """What is no name of a host makes no file."""
        for name in ("..", "a..b", "-x", "a/b", "a b", "x\ny", "é", "a" * 201, "a\n"):
            words = ("--store", self.path("store"), "--sha256", "0" * 64, "--", name)
            self.assertEqual(misused(self, "aide-compare hosts accept", *words)[0], 15, name)
            self.assertNotIn(name, os.listdir(self.path("store/hosts")))

    def test_same_for(self) -> None:
        """The same bytes for too long are no comparison, differences or not. 08 hours are eight."""
        for host, text, counts, status in (
            ("good1", NEW, f"; it differs: {COUNTS}", 7),
            ("same", OLD, "", 0),
        ):
            self.fleet.put(host, text)
            self.fleet.compare_one(host)
            kept = self.path("store/hosts/%s/aide.db.new" % host)
            os.utime(kept, (time.time() - 9 * 3600,) * 2)
            said = self.fleet.compare_one(host, "--same-for", "08h")
            self.fleet.not_compared("for more than 8 hours", said, host)
            self.assertIn(counts, said.output_text)
            self.assertIn("error=%s: has sent" % host, self.fleet.state(host))
            for age in ("10h", "0"):
                said = self.fleet.compare_one(host, "--same-for", age)
                self.assertEqual(said.status, status, (host, age, said))
            os.utime(kept, (time.time() + 7200,) * 2)
            self.fleet.not_compared("in the future", self.fleet.compare_one(host), host)

    def test_accepting(self) -> None:
        """A baseline of a host by the digest of what it sent, be it the first one."""
        accept = "aide-compare hosts accept"
        self.fleet.put("fresh", OLD, None)
        said = self.fleet.call(accept, "--sha256", sha256(OLD), "fresh")
        self.assertEqual((said.status, "nothing was fetched" in said.error_text), (18, True), said)
        self.assertFalse(os.path.exists(self.path("store/hosts/fresh")), "nothing is made of it")
        self.fleet.not_compared("no baseline yet", self.fleet.compare_one("fresh"), "fresh")
        self.assertEqual(self.fleet.call(accept, "fresh").status, 15, "no digest")
        self.assertEqual(self.fleet.call(accept, "--sha256", sha256(NEW), "fresh").status, 24)
        said = self.fleet.call(accept, "--sha256", sha256(OLD), "fresh")
        self.assertEqual(said.status, 0, said)
        mode = os.stat(self.path("store/hosts/fresh/aide.db")).st_mode & 0o777
        self.assertEqual(mode, 0o600)

    def test_shared(self) -> None:
        """A store or its states in which others can write are refused; a file of hosts too."""
        self.needs_root()
        self.fleet.compare_one("good2")
        os.chmod(self.path("store/states"), 0o777)
        said = self.fleet.call("aide-compare hosts list", self.path("one-host"))
        self.assertIn("good2 18 another user can write", said.output_text)
        os.chmod(self.path("store/states"), 0o755)
        os.chown(self.path("store/hosts/good1"), 65534, 65534)
        said = self.fleet.compare_one("good1")
        self.assertEqual(said.status, 18, said)
        self.assertIn("another user can write", said.output_text)
        os.chmod(self.path("store/hosts"), 0o700)
        words = ("aide-compare hosts list", "--store=store", "one-host")
        said = self.call(*words, before=AS_NOBODY)
        self.assertRegex(said.output_text, "^good1 18 .*: Permission denied\n$", "not: never")
        os.chmod(self.path("one-host"), 0o666)
        said = self.fleet.compare(self.path("one-host"))
        self.assertIn("other users can write the file of hosts", said.error_text)
        self.assertEqual((said.status, said.output), (18, b""), said)
