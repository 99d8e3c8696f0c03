"""A host that is added: what is shown, what is asked, and what is kept, with a small program in
ssh's place and with real sshds on the loopback device."""
from __future__ import annotations

import fcntl
import os
import shutil
import signal
import socket
import subprocess
import termios
import time
from typing import Any
from unittest import mock

from tests.lib.answer import Answer
from tests.lib.waiting import until

from .sandbox import CommandTest, NEW, OLD, sha256
from .test_fleet import DIFFERS, Fleet

PROMPT = b"yes or no: "
SSH_PROMPT = b"(yes/no/[fingerprint])? "
SSHD = "/usr/sbin/sshd"
LOCK = "hosts/www/lock"
WATCHED = {"etc-hosts": "www\n", LOCK: "", "states/www": ""}
WATCHED.update(dict.fromkeys(("hosts/www/aide.db", "hosts/www/aide.db.new"), OLD.decode()))


def add(
    sandbox: CommandTest, host: str, answer: str, *words: str, early: bytes = b"", key: bytes = b""
) -> Answer:
    """Runs the command on a terminal, and answers its question once it is asked; and that of ssh
    before it, if there is an answer to that."""
    options = ("--store", sandbox.path("store"), "--hosts-file", sandbox.path("etc-hosts"))
    # ssh asks on the terminal that its session has.
    terminal = sandbox.terminal(
        "aide-compare hosts add",
        *options,
        *words,
        host,
        start_new_session=True,
        preexec_fn=lambda: fcntl.ioctl(0, termios.TIOCSCTTY, 0),
    )
    if key:
        terminal.read(SSH_PROMPT)
        terminal.type(key)
    terminal.type(early)
    status, text = terminal.answered(PROMPT, answer.encode())
    return Answer(text, b"", status)


def files(sandbox: CommandTest) -> dict[str, str]:
    """What is kept: the file of hosts, the databases, and the names of all else in the store."""
    found = {}
    if os.path.exists(sandbox.path("etc-hosts")):
        found["etc-hosts"] = sandbox.read("etc-hosts").decode()
    for place, _, names in os.walk(sandbox.path("store")):
        for path in (f"{place}/{name}" for name in names):
            text = sandbox.read(path).decode() if "aide.db" in path else ""
            found[os.path.relpath(path, sandbox.path("store"))] = text
    return found


def free_port() -> int:
    with socket.socket() as found:
        found.bind(("127.0.0.1", 0))
        return int(found.getsockname()[1])


class Sshds:
    """Real sshds on the loopback device, each with a key and a database of its own."""

    def __init__(self, sandbox: CommandTest) -> None:
        self.sandbox = sandbox
        self.running: dict[str, subprocess.Popen[bytes]] = {}
        self.ports: dict[str, int] = {}
        keygen("-f", sandbox.path("client"))
        self.settings = f"IdentityFile {sandbox.path('client')}\nIdentitiesOnly yes\n"
        self.settings += f"UserKnownHostsFile {sandbox.path('known_hosts')}\n"
        sandbox.stub("ssh", f'exec /usr/bin/ssh -F "{sandbox.path("ssh.conf")}" "$@"')

    def start(self, name: str, command: str) -> None:
        """A host of this name, where the collector's key runs this command and no other."""
        key = self.sandbox.path(f"{name}.key")
        if os.path.exists(key):
            os.remove(key)
        keygen("-f", key)
        public = self.sandbox.read("client.pub").decode()
        self.sandbox.write(f"{name}.keys", f'restrict,command="{command}" {public}')
        port = self.ports.setdefault(name, free_port())
        lines = ["ListenAddress 127.0.0.1", f"Port {port}", f"HostKey {key}", "PidFile none"]
        lines += ["StrictModes no", "UsePAM no", "PermitRootLogin forced-commands-only"]
        lines += [f"AuthorizedKeysFile {self.sandbox.path(name + '.keys')}"]
        self.sandbox.write(f"{name}.conf", "\n".join(lines) + "\n")
        words = [SSHD, "-D", "-e", "-f", self.sandbox.path(f"{name}.conf")]
        self.running[name] = subprocess.Popen(words, stderr=subprocess.DEVNULL)
        self.settings += f"Host {name}\n    HostName 127.0.0.1\n    Port {port}\n    User root\n"
        self.sandbox.write("ssh.conf", self.settings)
        until(lambda: is_listening(port))

    def end(self) -> None:
        for process in self.running.values():
            process.kill()
            process.wait()


def keygen(*words: str) -> None:
    subprocess.run(["ssh-keygen", "-q", "-t", "ed25519", "-N", "", *words], check=True)


def is_listening(port: int) -> bool:
    with socket.socket() as found:
        return found.connect_ex(("127.0.0.1", port)) == 0


class HostsAddTest(CommandTest):
    def setUp(self) -> None:
        super().setUp()
        self.fleet = Fleet(self)
        shutil.rmtree(self.path("store"))

    def refuses(self, status: int, told: str, host: str, *words: str) -> None:
        """A host is not asked about, and nothing of it is kept, or no more than there was."""
        before = files(self)
        asked = add(self, host, "yes\n", *words)
        self.assertEqual(asked.status, status, asked)
        self.assertIn(told, asked.output_text)
        self.assertNotIn("yes or no", asked.output_text)
        self.assertEqual(files(self), before, asked)

    def test_yes(self) -> None:
        """The digest is shown before the question; after yes all is there, once."""
        self.fleet.put("www", OLD, None)
        asked = add(self, "www", "yes\n")
        self.assertEqual(asked.status, 0, asked)
        before = asked.output_text.partition("yes or no: ")[0]
        for part in (sha256(OLD), "zcat -f /var/lib/aide/aide.db.new | sha256sum"):
            self.assertIn(f"    {part}\n", before)
        self.assertLessEqual(max(map(len, before.split("\n"))), 80, before)
        self.assertEqual(files(self), WATCHED)
        self.assertEqual(self.read("known_hosts"), b"www KEY\n", "ssh has asked once")
        self.refuses(24, "not in the file of hosts, write its name there", "www")
        shutil.rmtree(self.path("store/hosts/www"))
        asked = add(self, "www", "YES\n")
        self.assertEqual((asked.status, files(self)["etc-hosts"]), (0, "www\n"), asked)

    def test_several(self) -> None:
        """Each host has a question of its own, and what ends one ends no other one. They come
        behind a last line that has no end."""
        self.write("etc-hosts", "www0\n# no end of line")
        for host in ("www", "db1", "db2"):
            self.fleet.put(host, OLD, None)
        options = ("--store", self.path("store"), "--hosts-file", self.path("etc-hosts"))
        hosts = ("www", "denied", "db1", "db2")
        terminal = self.terminal("aide-compare hosts add", *options, *hosts)
        for name, answer in ((b"www", b"yes\n"), (b"db1", b"no\n"), (b"db2", b"yes\n")):
            terminal.read(b"Then %s is watched from now on. %s" % (name, PROMPT))
            terminal.type(answer)
        status, text = terminal.end()
        listed = files(self)["etc-hosts"]
        self.assertEqual((status, listed), (24, "www0\n# no end of line\nwww\ndb2\n"), text)
        self.assertIn(b"Permission denied", text)
        self.assertEqual(text.count(PROMPT), 3, text)

    def test_no(self) -> None:
        """Any other answer, or no terminal, keeps nothing."""
        self.fleet.put("www", OLD, None)
        for answer in ("no\n", "\n", "y\n", "yes please\n", "\x04"):
            asked = add(self, "www", answer)
            self.assertEqual((asked.status, files(self)), (24, {}), asked)
            self.assertIn("www: the answer was not yes", asked.output_text)
        asked = add(self, "www", "\x03")  # As ^C, which the terminal makes a signal of.
        self.assertEqual((asked.status, files(self)), (-signal.SIGINT, {LOCK: ""}), asked)
        asked = add(self, "www", "no\n", early=b"yes\n")
        self.assertEqual((asked.status, files(self)), (24, {}), "typed before the question")
        command = "aide-compare hosts add"
        said = self.fleet.call(command, "www")
        self.assertEqual((said.status, files(self)), (15, {}), said)
        self.assertIn("needs a terminal", said.error_text)
        said = self.fleet.call(command, "--sha256", sha256(NEW), "www")
        self.assertEqual((said.status, files(self)), (24, {}), said)
        self.assertIn(f"sent another database, with the SHA-256 {sha256(OLD)}", said.error_text)
        for words in (("--sha256", sha256(OLD), "www", "db1"), ("--yes", "www")):
            said = self.fleet.call(command, *words)
            self.assertEqual((said.status, files(self)), (15, {}), (words, said))

    def test_digest(self) -> None:
        """With the digest of its database a host is added without a question, once. What failed
        before is not said of it any more."""
        words = ("--sha256", sha256(OLD)[:16].upper(), "--hosts-file", self.path("etc-hosts"))
        said = self.fleet.call("aide-compare hosts add", *words, "www")
        self.assertEqual((said.status, files(self)), (18, {}), said)
        self.fleet.put("www", OLD, None)
        said = self.fleet.call("aide-compare hosts add", *words, "www")
        self.assertEqual((said.status, said.error_text), (0, ""), said)
        self.assertEqual(files(self), WATCHED)
        self.assertFalse(os.path.exists(self.path("known_hosts")), "ssh has not asked")
        listed = self.fleet.call("aide-compare hosts list", self.path("etc-hosts")).output_text
        self.assertEqual(listed, "www 18 was never compared\n")
        said = self.fleet.call("aide-compare hosts add", *words, "www")
        self.assertEqual((said.status, "a baseline already" in said.error_text), (24, True), said)
        self.fleet.put("db1", OLD, None)
        self.patch("commands.hosts_add.refuse_unsound", lambda _: time.sleep(60))
        self.refuses(18, "db1 took more than 4 seconds", "db1", "--time=4s")

    def test_at_once(self) -> None:
        """Of commands that change the file of hosts at once, each keeps what the others wrote, and
        waits for a lock, but not for ever."""

        def late(*words: Any, **more: Any) -> None:
            from aide_compare.base.replacement import replace

            time.sleep(0.7)
            replace(*words, **more)

        self.patch("hosts.hosts_file.replace", late)
        file = self.write("etc-hosts", "gone\n")
        digest = ("--sha256", sha256(OLD))
        runs = []
        for command, host in (("remove", "gone"), ("add", "www"), ("add", "db1")):
            self.fleet.put(host, OLD, None)
            words = (*digest, host) if command == "add" else (host,)
            words = ("--hosts-file", file, "--store", self.path("store"), *words)
            runs.append(self.start(f"aide-compare hosts {command}", *words))
        for run in runs:
            self.assertIn(b" watched", run.communicate(timeout=60)[0], run.args)
        self.assertEqual(sorted(self.read(file).split()), [b"db1", b"www"])
        self.set_names("base.files", SECONDS_FOR_LOCK=0)
        # Its lock is a file that goes again; who can only read the directory locks nothing.
        self.assertNotIn(".etc-hosts.lock", os.listdir(self.root))
        self.hold(self.root)
        words = ("--store", self.path("store"), "--hosts-file", file, "www")
        self.answered(0, None, None, "aide-compare hosts remove", *words)
        self.hold(self.write(".etc-hosts.lock", b"", 0o600))
        told = "its directory: another process has locked it for 0 seconds"
        self.fleet.put("db2", OLD, None)
        self.refuses(18, told, "db2", *digest)

    def hold(self, path: str) -> None:
        """Locks a file or a directory until the end of the test."""
        descriptor = os.open(path, os.O_RDONLY)
        self.addCleanup(os.close, descriptor)
        fcntl.flock(descriptor, fcntl.LOCK_EX)

    def test_open(self) -> None:
        """A host that lets everybody in gets no session and no agent when ssh asks about its key,
        and the end of that time is not the end of all."""
        self.refuses(18, "open: had not sent all of it after 2 seconds", "open", "--time=2s")
        asked = self.read("asked").decode().split(" -o ")
        self.assertEqual(asked[0], "-n -N -a -x")
        self.assertLessEqual({"ClearAllForwardings=yes", "ControlPath=none"}, set(asked))

    def test_faults(self) -> None:
        """What cannot be fetched or is no database is not asked about."""
        for host, data in (("denied", OLD), ("empty", b""), ("other", b"x\n")):
            self.fleet.put(host, data, None)
        self.refuses(18, "is the key of this user in its authorized_keys?", "denied")
        self.refuses(18, "sent nothing", "empty")
        # A jump host with an unknown key: its ssh asks, whatever the options of the first one.
        self.refuses(18, "cannot open /dev/tty", "asking")
        self.refuses(24, "no sound database", "other")
        for name in ("-x", "x\ny", "$(x)", "a#b"):
            self.refuses(15, "", name, "--")
        said = self.fleet.call("aide-compare hosts add", "bad name")
        self.assertIn("the name of a host begins with", said.error_text, "before its terminal")
        self.fleet.put("www", OLD, None)
        words = ("www", "--sha256", sha256(OLD))
        os.symlink("none", self.path("etc-hosts"))
        self.refuses(18, "cannot open the file of hosts", *words)
        for name, told in (("is_same", "read what it sent"), ("run", "run ssh")):
            self.patch(f"hosts.fetching.{name}", mock.Mock(side_effect=OSError(5, "x")))
            self.refuses(18, f"www: cannot {told}: x", *words)

    def test_sshd(self) -> None:
        """Two hosts by real ssh: added, one down, one with another key."""
        self.needs_root()
        if not os.path.exists(SSHD) or not shutil.which("ssh"):
            self.skipTest("not installed: sshd")
        os.makedirs("/run/sshd", exist_ok=True)
        sshds = Sshds(self)
        self.addCleanup(sshds.end)
        for name in ("www", "db1"):
            self.write(f"remote/{name}", OLD)
            sshds.start(name, f"cat {self.path('remote/' + name)}")
            asked = add(self, name, "", key=b"no\n")
            self.assertEqual((asked.status, name in files(self)), (18, False), asked)
            self.assertIn("is its key in known_hosts?", asked.output_text)
            asked = add(self, name, "yes\n", key=b"yes\n")
            self.assertEqual(asked.status, 0, asked)
            words = ["ssh-keygen", "-lf", self.path(f"{name}.key.pub")]
            fingerprint = subprocess.check_output(words).decode().split(" ")[1]
            self.assertIn(fingerprint, asked.output_text)
        self.compared(0, "www 0 no differences", "db1 0 no differences")
        self.write("remote/www", NEW)
        sshds.running["db1"].kill()
        sshds.running["db1"].wait()
        output = self.compared(18, f"www {DIFFERS}")
        self.assertRegex(output, '(?m)^db1 18 "ssh: .*Connection refused')
        sshds.start("db1", "cat /dev/null")
        self.compared(18, 'db1 18 "Host key verification failed')
        shutil.rmtree(self.path("store/hosts/db1"))
        self.refuses(18, "Host key verification failed", "db1")

    def compared(self, status: int, *lines: str) -> str:
        """The next night: the beginnings of some of its lines."""
        said = self.fleet.compare(self.path("etc-hosts"))
        self.assertEqual(said.status, status, said)
        for line in lines:
            self.assertIn("\n" + line, "\n" + said.output_text)
        return said.output_text
