"""A directory into which the commands are installed, and in which the pages' blocks run: what they
name below / lies below it. `sendmail`, `ssh`, `logger` and others are small programs of the tests,
so nothing leaves the machine."""
from __future__ import annotations

import atexit
import functools
import glob
import gzip
import os
import pathlib
import re
import shutil
import subprocess
import tempfile

from tests.lib import apart
from tests.lib.answer import Answer, run
from tests.lib.copies import compile_modules
from tests.lib.program_test import ScratchTest
from tests.lib.programs import find_program, lines_program_of
from tests.lib.scratch import TOP

# What blocks and commands name; in a test it lies below the root.
DIRECTORIES = (
    "/etc/aide /etc/aide-compare /etc/apt/apt.conf.d /etc/cron.d /etc/cron.daily "
    "/etc/default /etc/systemd/system /root /srv/aide /srv/www /usr/local /var/lib/aide "
    "/var/lib/aide-compare /var/lib/dpkg /var/lib/prometheus /var/log/aide-compare /var/tmp"
).split()
NAMED = re.compile(r"(?<![\w/])(%s)(?![\w.-])" % "|".join(DIRECTORIES))
LIBRARY = "lib/aide-compare/python"
NOBODY = 65534
HEAD = "@@begin_db\n@@db_spec name attr perm size\n"
STORE = "/var/lib/aide-compare"
STATE = STORE + "/daily/state"
BASELINE, NEWEST = "/var/lib/aide/aide.db", "/var/lib/aide/aide.db.new"
HOSTS = "/etc/aide-compare/hosts"
SSH = """\
while [ "${1#-}" != "$1" ]; do [ "$1" = -o ] && shift; shift; done
host=$1 file=${2##*/}
case $host in
    down*) echo "ssh: connect to host $host port 22: No route to host" >&2; exit 255 ;;
    loud) exec cat /dev/zero >&2 ;;
    silent) exit 0 ;;
    broken) head -c 30 "ROOT/remote/$host/$file"; exit 255 ;;
esac
exec cat "ROOT/remote/$host/$file"
"""


@functools.lru_cache(maxsize=None)
def installed(program: str) -> tuple[str, str]:
    """The root of every machine of this process, and what packaging/install puts there, with byte
    code. Its texts name directories below the root. It is made once."""
    directory = tempfile.mkdtemp(prefix="aide-compare-installed-")
    atexit.register(shutil.rmtree, directory, True)
    os.chmod(directory, 0o755)
    words = [os.path.join(TOP, "packaging", "install"), "--destdir", directory]
    subprocess.run([*words, "--program", program], check=True, stdout=subprocess.DEVNULL)
    root, local = os.path.join(directory, "root"), os.path.join(directory, "usr/local")
    for path in pathlib.Path(local).rglob("*"):
        if path.is_file() and not path.is_symlink() and b"\0" not in path.read_bytes():
            text = NAMED.sub(lambda found: root + found[1], path.read_bytes().decode())
            path.write_bytes(text.encode())
    compile_modules(os.path.join(local, LIBRARY))
    return root, local


def example(name: str) -> bytes:
    with open(os.path.join(TOP, "examples", "small_tree", name), "rb") as file:
        return file.read()


class MachineTest(ScratchTest):
    """A test with such a directory of its own."""

    def setUp(self) -> None:
        self.program = find_program()
        super().setUp()
        others = ["/stubs", "/tmp", "/var/lib/prometheus/node-exporter", os.path.dirname(STATE)]
        for name in [*DIRECTORIES, *others]:
            os.makedirs(self.path(name), exist_ok=True)
        os.chmod(self.path("/var/lib/aide"), 0o700)
        for name in ("/tmp", "/var/tmp"):
            os.chmod(self.path(name), 0o1777)
        apart.forget_user("_aide", self.root)
        local = installed(self.program)[1]
        shutil.copytree(local, self.path("/usr/local"), True, dirs_exist_ok=True)
        self.put_stubs()

    def make(self, prefix: str = "aide-test-") -> None:
        super().make(prefix)
        made, self.root = self.root, installed(self.program)[0]
        shutil.rmtree(self.root, ignore_errors=True)
        os.rename(made, self.root)

    def put_stubs(self) -> None:
        """The commands of the machine that the tools call: what they are given is kept."""
        sendmail = '#!/bin/sh\ncat >> "%s/tmp/mailed"\n' % self.root
        self.write("/usr/local/sbin/sendmail", sendmail, 0o755)
        self.write("/usr/local/sbin/systemctl", "#!/bin/sh\nexit 0\n", 0o755)
        kept = self.path("/tmp/logged")
        self.stub("logger", f'printf "%s\\n" "$*" >> "{kept}"; [ -t 0 ] || cat >> "{kept}"')
        for name in ("systemctl", "chown", "apt"):
            self.stub(name, "exit 0")
        self.stub("ssh", SSH.replace("ROOT", self.root))
        self.put_packages("3.0.16-1", {})

    def put_packages(self, version: str, digests: dict[str, str]) -> None:
        """dpkg's records of a machine with one package, openssl, and the MD5 sums of its files."""
        status = "Package: openssl\nStatus: install ok installed\nArchitecture: amd64\nVersion: "
        self.write("/var/lib/dpkg/status", f"{status}{version}\n\n")
        names = "".join(path + "\n" for path in digests)
        self.write("/var/lib/dpkg/info/openssl.list", "/.\n" + names)
        sums = "".join(f"{digest}  {path[1:]}\n" for path, digest in digests.items())
        self.write("/var/lib/dpkg/info/openssl.md5sums", sums)

    def put_databases(self, old: str | bytes, new: str | bytes, *names: str) -> None:
        for name, text in zip(names or (BASELINE, NEWEST), (old, new)):
            data = text if isinstance(text, bytes) else text.encode()
            self.write(name, gzip.compress(data), 0o600)

    def put_pair(self, old: str | bytes, new: str | bytes) -> None:
        """The two databases, and a line of the defaults that names them."""
        self.put_databases(old, new)
        path = "/etc/aide-compare/defaults"
        if "--databases" not in self.text_at(path):
            self.write(path, self.text_at(path) + self.below(f"--databases {BASELINE} {NEWEST}\n"))

    def below(self, text: str) -> str:
        """A text with the directories that it names put below the root."""
        return NAMED.sub(lambda found: self.root + found[1], text)

    def above(self, text: str) -> str:
        """A text as it is on a machine where nothing lies below a root."""
        return text.replace(self.root, "")

    def path(self, *names: str) -> str:
        """Where a name of the machine lies below the root."""
        return os.path.join(self.root, *(name.lstrip("/") for name in names))

    def text_at(self, name: str) -> str:
        """The text of a file; nothing if there is none."""
        try:
            with open(self.path(name), encoding="utf-8", errors="surrogateescape") as file:
                return file.read()
        except FileNotFoundError:
            return ""

    def taken(self, name: str) -> str | None:
        """What a stub was given since the last call; None if it was not called."""
        path = self.path("/tmp", name)
        if not os.path.exists(path):
            return None
        text = self.text_at("/tmp/" + name)
        os.remove(path)
        return text

    def environment(self) -> dict[str, str]:
        places = ["/stubs", "/usr/local/sbin", "/usr/local/bin"]
        path = ":".join([*map(self.path, places), os.environ["PATH"]])
        own = {"PATH": path, "TMPDIR": self.path("/var/tmp"), "HOME": self.path("/tmp")}
        # In a command itself, the path of a clone below /root would be put below the root.
        return {**os.environ, **own, "EXAMPLES": os.path.join(TOP, "examples")}

    def run_words(self, words: list[str], rights: int | None = None) -> Answer:
        """What a command answers, the root taken out. `rights`: a user to run as, if root."""
        if rights is not None and os.geteuid() == 0:
            number = str(rights)
            words = ["setpriv", "--reuid", number, "--regid", number, "--clear-groups", *words]
        done = run(words[0], words[1:], cwd=self.path("/tmp"), env=self.environment())
        root = os.fsencode(self.root)
        return Answer(done.output.replace(root, b""), done.errors.replace(root, b""), done.status)

    def shell(self, text: str, rights: int | None = None) -> Answer:
        """Runs the text of a block as it stands, with its directories below the root."""
        return self.run_words(["bash", "-c", self.below(text)], rights)

    def unit_commands(self) -> list[str]:
        """What the services of systemd start: the comparison, then the sending. The files beside a
        unit come last, and an ExecStart= without a command takes back those before it."""
        commands = []
        for name in ("aide-compare.service", "aide-compare-mail.service"):
            drop_ins = sorted(glob.glob(self.path(f"/etc/systemd/system/{name}.d/*.conf")))
            units = [self.path("/usr/local/lib/systemd/system", name), *drop_ins]
            text = "".join(self.text_at(os.path.relpath(unit, self.root)) for unit in units)
            found = re.findall(r"^ExecStart=(.*)$", text.replace("\\\n", " "), re.M)
            if "" in found:
                found = found[len(found) - found[::-1].index("") :]
            self.assertEqual(len(found), 1, name)
            commands += found
        return commands

    def mail_of(self, commands: list[str]) -> str | None:
        """The mail of a job, which has to end well and to print nothing; None if it sent none."""
        self.taken("mailed")
        for command in commands:
            self.assertEqual(self.shell(command), Answer(b"", b"", 0), command)
        return self.taken("mailed")

    def digest_of_state(self, name: str = STATE) -> str:
        found = re.search('"new_sha256": "([0-9a-f]{64})"', self.text_at(name))
        self.assertIsNotNone(found, self.text_at(name))
        return found.group(1) if found else ""

    def clone(self) -> str:
        """What the commands of a clone use: examples, and programs where the build leaves them."""
        place = self.path("/tmp/clone")
        for name in ("aide", "aide_lines"):
            built = os.path.join(place, "crates", name, "out")
            os.makedirs(built)
            program = self.program if name == "aide" else lines_program_of(self.program)
            os.symlink(program, os.path.join(built, name))
        for name in ("examples", "commands"):
            os.symlink(os.path.join(TOP, name), os.path.join(place, name))
        # The program is there: nothing is proved.
        text = '#!/bin/sh\n[ "$*" = --prove ] || exec aide-compare "$@"\n'
        self.write("/tmp/clone/compare", text, 0o755)
        return place
