"""The Debian package as dpkg installs, upgrades, removes and purges it on this machine, in a copy of
its files, and what it tells its user."""
from __future__ import annotations

import os
import re
import shutil

from tests.lib.answer import Answer
from tests.packaging.byte_code import tag
from tests.packaging.installation import InstallTest, texts, tree

TIMER = "aide-compare.timer"
UNITS = ["aide-compare-failed.service", "aide-compare-mail.service", "aide-compare.service", TIMER]
WANTED = "etc/systemd/system/timers.target.wants/" + TIMER
# What `aide-compare setup` puts into /etc.
MADE = (
    "etc/aide-compare/defaults",
    "etc/apt/apt.conf.d/60aide-compare",
    "etc/cron.daily/zz-aide-compare",
    "etc/systemd/system/aide-compare.service.d/signed.conf",
)
RULES = "etc/aide/aide.conf.d/31_aide_aide-compare"
NOTES = "var/lib/systemd/deb-systemd-helper-enabled/"
BASELINE = "var/lib/aide-compare/hosts/www/aide.db"
LIBRARY = "usr/lib/aide-compare/python"
DAILY = "var/lib/aide-compare/daily/mail/waiting"
MASK = ("env", "DPKG_MAINTSCRIPT_PACKAGE=aide-compare", "deb-systemd-helper", "mask", TIMER)
# Runs a command on a copy of this machine's files: what it writes stays in the directory UPPER.
COPY = """
mount -t overlay overlay -o "lowerdir=/,upperdir=$1,workdir=$2" "$3" || exit 99
mount --bind /dev "$3/dev" && mount --bind /proc "$3/proc" || exit 99
shift 2
exec chroot "$@"
"""


def try_texts(trial: InstallTest, folder: str) -> None:
    """What a user reads first: the command of README.Debian, and whose choice the licence is."""
    found = texts(tree(folder))
    documents = "usr/share/doc/aide-compare/"
    trial.assertIn("choice of their owner", found[documents + "copyright"].replace("\n", " "))
    # AIDE on Debian runs a file of this folder that is executable.
    mode = os.stat(os.path.join(folder, RULES)).st_mode & 0o777
    trial.assertEqual(mode, 0o644, "the mode of the rules for AIDE")
    readme = found[documents + "README.Debian"]
    (command,) = re.findall(r"^    (aide-compare /.*(?:\n {8}.*)*)", readme, re.M)
    here = command.replace("/usr/", folder + "/usr/")
    here = here.replace("aide-compare", folder + "/usr/bin/aide-compare", 1)
    done = trial.run_words(["sh", "-c", here])
    trial.assertEqual([str(done.status)], re.findall(r"ends with status (\d+)", readme), done)
    trial.assertRegex(done.output_text, r"\A[0-9]+ open .*of [0-9]+ changes\n")
    for name in re.findall(r"/(?:usr|etc)/[\w./-]*\w", readme):
        # What the administrator or aide-compare makes for this machine is in no package.
        made = ("/etc/systemd/system/", "/etc/aide-compare/defaults", "/etc/aide-compare/hosts")
        if not name.startswith(made):
            trial.assertTrue(os.path.exists(folder + name), "what README.Debian names: " + name)


def try_stop(trial: InstallTest, folder: str) -> None:
    """Before its files go, every unit is stopped: first the timer, then the comparison, and then
    what that starts. An upgrade stops nothing."""
    machine, log = trial.path("machine"), trial.path("stopped")
    os.makedirs(machine)
    for name in ("deb-systemd-invoke", "deb-systemd-helper", "systemctl"):
        trial.stub(name, f'printf "%s\\n" "$*" >> "{log}"', "debian-stubs")
    for name in ("py3clean", "dpkg"):
        trial.stub(name, "", "debian-stubs")
    more = dict(os.environ, PATH=trial.path("debian-stubs") + ":" + os.environ["PATH"])
    more.pop("DPKG_ROOT", None)
    with open(os.path.join(folder, "DEBIAN", "prerm")) as file:
        script = file.read().replace("/run/systemd/system", machine)
    trial.assertEqual(sorted(os.listdir(os.path.join(folder, "usr/lib/systemd/system"))), UNITS)
    done = trial.run_words(["sh", "-c", script, "prerm", "upgrade", "2"], env=more)
    trial.assertEqual((done, os.path.exists(log)), (Answer(b"", b"", 0), False))
    done = trial.run_words(["sh", "-c", script, "prerm", "remove"], env=more)
    trial.assertEqual(done, Answer(b"", b"", 0))
    with open(log) as file:
        stopped = [word for line in file if line.startswith("stop ") for word in line.split()[1:]]
    trial.assertEqual(stopped[:2], [TIMER, "aide-compare.service"], "the timer, the comparison")
    trial.assertEqual(sorted(stopped), UNITS)


class Machine:
    """This machine, whose files are never changed: what commands write is in a directory."""

    def __init__(self, trial: InstallTest, package: str) -> None:
        self.trial, self.upper = trial, trial.path("upper")
        for name in ("upper", "work", "root"):
            os.makedirs(trial.path(name))
        self.replace_package(package)

    def replace_package(self, package: str) -> None:
        shutil.copy(package, os.path.join(self.upper, "aide-compare.deb"))

    def run(self, *words: str) -> Answer:
        places = [self.upper, self.trial.path("work"), self.trial.path("root")]
        done = self.trial.run_words(["unshare", "-m", "sh", "-c", COPY, "sh", *places, *words])
        if done.status == 99:
            self.trial.skipTest("nothing can be mounted here")
        return done

    def dpkg(self, action: str, what: str) -> None:
        done = self.run("dpkg", "--no-triggers", "--force-confold", action, what)
        self.trial.assertEqual(done.status, 0, done)

    def install(self) -> None:
        self.dpkg("--install", "/aide-compare.deb")

    def has(self, path: str) -> bool:
        """Whether there is a file of the package or of the test. A removed one may be a device."""
        whole = os.path.join(self.upper, path)
        return os.path.lexists(whole) and (os.path.islink(whole) or os.stat(whole).st_rdev == 0)

    def write(self, path: str, text: str) -> None:
        self.trial.write(os.path.join("upper", path), text)

    def remove(self, path: str) -> None:
        self.trial.assertEqual(self.run("rm", "-r", "/" + path).status, 0, path)

    def enable(self, path: str = WANTED) -> None:
        done = self.run("ln", "-s", "/lib/systemd/system/" + TIMER, "/" + path)
        self.trial.assertEqual(done.status, 0, done)


def try_life(trial: InstallTest, package: str) -> None:
    """Installations, removals, upgrades and purges, by dpkg itself."""
    trial.needs_root()
    trial.needs("dpkg", "deb-systemd-helper", "py3compile", "unshare")
    machine = Machine(trial, package)
    machine.install()
    for path in ("usr/bin/aide-compare", "usr/share/doc/aide-compare/copyright"):
        trial.assertTrue(machine.has(path), "dpkg installs " + path)
    trial.assertFalse(machine.has(WANTED), "the timer is off after a first installation")
    # Which link an administrator may make.
    trial.assertTrue(machine.has(NOTES + TIMER + ".dsh-also"), "an installation notes it")
    code(trial, machine)
    again(trial, machine)
    kept(trial, machine)
    machine.dpkg("--purge", "aide-compare")
    for path in (WANTED, RULES, DAILY, "var/lib/aide-compare/daily", NOTES + TIMER + ".dsh-also"):
        trial.assertFalse(machine.has(path), "a purge removes " + path)
    trial.assertTrue(machine.has(BASELINE), "a purge leaves the baselines of hosts")
    machine.remove("var/lib/aide-compare/hosts")
    machine.install()
    for path in (DAILY, *MADE):
        machine.write(path, "text\n")
    machine.dpkg("--purge", "aide-compare")
    for path in ("var/lib/aide-compare", "etc/aide-compare", *MADE, os.path.dirname(MADE[-1])):
        trial.assertFalse(machine.has(path), "a purge leaves no " + path)


def code(trial: InstallTest, machine: Machine) -> None:
    """Byte code of each module is made at an installation and an upgrade, and none is left."""
    folder = os.path.join(machine.upper, LIBRARY)
    for name in ("installed", "upgraded"):
        found = [path for path in tree(folder) if path.endswith(".py")]
        made = [path for path in tree(folder) if path.endswith(f".{tag()}.pyc")]
        trial.assertEqual(len(made), len(found), f"{name}: each module has byte code")
        trial.assertGreater(len(found), 60, name)
        machine.install()
    machine.dpkg("--remove", "aide-compare")
    trial.assertFalse(machine.has("usr/lib/aide-compare"), "a removal leaves no byte code")


def again(trial: InstallTest, machine: Machine) -> None:
    """The timer is after a removal and an installation what it was before."""
    machine.install()
    for is_on in (False, True, False):
        if is_on:
            machine.enable()
        elif machine.has(WANTED):
            machine.remove(WANTED)
        # Older tools of Debian mask a unit when its package goes, so that systemd does not miss it.
        done = machine.run(*MASK)
        trial.assertTrue(machine.has("etc/systemd/system/" + TIMER), ("the timer is masked", done))
        machine.dpkg("--remove", "aide-compare")
        trial.assertFalse(machine.has("usr/bin/aide-compare"), "a removal removes the program")
        machine.install()
        trial.assertFalse(machine.has("etc/systemd/system/" + TIMER), "the timer is not masked")
        trial.assertEqual(machine.has(WANTED), is_on, "the timer is as it was")
    machine.enable()


def kept(trial: InstallTest, machine: Machine) -> None:
    """A removal leaves what an administrator has changed, and what a purge removes."""
    machine.write(RULES, "# mine\n")
    machine.write(DAILY, "mail\n")
    machine.write(BASELINE, "@@begin_db\n")
    machine.dpkg("--remove", "aide-compare")
    for path in (RULES, DAILY, BASELINE, WANTED):
        trial.assertTrue(machine.has(path), "a removal leaves " + path)
    machine.install()
    with open(os.path.join(machine.upper, RULES)) as file:
        trial.assertEqual(file.read(), "# mine\n", "the administrator's rules for AIDE stay")
