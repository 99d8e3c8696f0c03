"""Installing and removing: which files come where, and what is left alone."""
from __future__ import annotations

import os
import re
import shutil
from typing import Any

from tests.lib.answer import Answer
from tests.lib.program_test import slow
from tests.lib.programs import lines_program_of
from tests.packaging import byte_code
from tests.packaging.installation import PROGRAMS, InstallTest, files, rights, tree

DOCUMENTS = "share/doc/aide-compare"
MANIFEST = "lib/aide-compare/installed"
FOLDERS = {
    "commands/bin": "bin",
    "commands/share": "share/aide-compare",
    "docs": DOCUMENTS,
    "examples/small_tree": DOCUMENTS + "/examples/small_tree",
}

NEWER = tuple(path + "-v3" for path in PROGRAMS)

LINK = "lib/nagios/plugins/check_aide_compare"
PAGES = ("aide-compare-show", "aide-compare-sort", "check_aide_compare")
# What packaging/install makes.
MADE = {
    LINK: 0o777,
    **{f"share/man/man1/{name}.1": 0o644 for name in PAGES},
    **{path + ".build": 0o644 for path in PROGRAMS + NEWER},
    "share/bash-completion/completions/aide-compare": 0o644,
}
FOR_USERS = ("GUIDE.md", "HOSTS.md", "LIMITS.md", "PROVED.md")


def target_of(path: str) -> str | None:
    """Where a file of the repository is installed, below the prefix; nothing if it is not."""
    folder, name = os.path.split(path)
    if folder == "docs" and name.endswith(".md") and name not in FOR_USERS:
        return None
    if folder.startswith("commands/lib/"):
        return "lib/aide-compare/python/" + path[len("commands/lib/") :]
    if folder in FOLDERS:
        return FOLDERS[folder] + "/" + name
    if folder == "man":
        return "share/man/man%s/%s" % (name[-1], name)
    if path.startswith("contrib/systemd/"):
        return "lib/systemd/system/" + path[len("contrib/systemd/") :]
    if path.startswith("contrib/"):
        return DOCUMENTS + "/examples/" + path[len("contrib/") :]
    return None if "/" in path or name == "Makefile" else DOCUMENTS + "/" + name


def wanted_modes(source: str) -> dict[str, int]:
    """The permissions of each file that is to be installed, by its path below the prefix."""
    wanted = {**{path: 0o755 for path in PROGRAMS + NEWER}, MANIFEST: 0o644, **MADE}
    for path, (mode, _) in files(tree(source)).items():
        mode = 0o755 if mode & 0o100 else 0o644
        target = target_of(path)
        if target is not None and not path.endswith(".pyc"):
            wanted[target] = mode
    return wanted


def differing(one: dict[str, Any], other: dict[str, Any]) -> list[str]:
    return sorted(path for path in {*one, *other} if one.get(path) != other.get(path))


@slow
class InstallingTest(InstallTest):
    def run_install(self, folder: str, *words: str, **more: Any) -> Answer:
        """What packaging/install answers that installs below a folder."""
        return self.install("--destdir", folder, "--program", self.program, *words, **more)

    def removes_all(self, folder: str, **more: Any) -> None:
        done = self.install("--destdir", folder, "--uninstall", **more)
        left = tree(folder)
        own = [path for path in left if path in files(left) or "aide-compare" in path]
        self.assertEqual((done.status, done.error_text, own), (0, "", []), done)

    def test_targets(self) -> None:
        wanted = wanted_modes(self.source)
        self.assertGreater(len(wanted), 150)
        found = tree(self.first("../.."))
        prefix = "usr/local/"
        given = {path[len(prefix) :]: mode for path, (mode, _) in files(found).items()}
        self.assertEqual(differing(given, wanted), [], "the modes of files")
        folders = {mode for mode, data in found.values() if data is None}
        self.assertEqual(folders, {0o755}, "the modes of folders")
        programs = (self.program, lines_program_of(self.program), *self.newer)
        for program, target in zip(programs, PROGRAMS + NEWER):
            self.assertEqual(found[prefix + target][1], self.read(program), target)
        commands = [target for target in wanted if target.startswith("bin/")]
        self.assertEqual(commands, ["bin/aide-compare"])

    def test_umask(self) -> None:
        """The same files are installed, whatever permissions the user gives to new ones."""
        first, folder = tree(self.first("../..")), self.path("narrow")
        done = self.run_install(folder, shell=["sh", "-c", 'umask 077; exec "$@"', "sh"])
        self.assertEqual((done.status, done.error_text), (0, ""), done)
        self.assertEqual(differing(tree(folder), first), [])
        self.removes_all(folder)

    def test_again(self) -> None:
        """A second run replaces files by renaming; what the repository has no more is removed."""
        folder, source = self.path("again"), self.small_copy("changing", "commands/lib")
        more = os.path.join(source, "contrib", "cron", "left out later")
        shutil.copy(os.path.join(source, "VERSION"), more)
        target = os.path.join(folder, "usr/local", DOCUMENTS, "examples/cron/left out later")
        self.run_install(folder, source=source)
        self.assertTrue(os.path.exists(target), "a further file of contrib is installed")
        before = tree(folder)
        with open(os.path.join(folder, "usr/local/libexec/aide-compare/aide"), "rb") as running:
            done = self.run_install(folder, source=source)
            self.assertEqual((done.status, differing(tree(folder), before)), (0, []), done)
            old, new = os.fstat(running.fileno()), os.stat(running.name)
            self.assertNotEqual(old.st_ino, new.st_ino, "the program is replaced by another file")
            size = len(running.read())
            self.assertEqual(size, new.st_size, "a run of the old one keeps its file")
        os.remove(more)
        done = self.run_install(folder, source=source)
        self.assertEqual((done.status, os.path.exists(target)), (0, False), done)
        self.removes_all(folder, source=source)

    def test_uninstall(self) -> None:
        """It leaves what others have put there, and names outside of the prefix."""
        folder = self.path("shared")
        self.write("shared/usr/local/bin/.aide-compare.mine", "another's file\n")
        kept = self.write("shared/etc/kept", "another's file\n")
        os.makedirs(self.path("shared/usr/local/share/man/man1"))
        before = tree(folder)
        self.run_install(folder, source=self.small)
        mine = f"usr/local/{DOCUMENTS}/examples/mine"
        self.write("shared/" + mine, "an administrator's\n")
        outside = self.write("outside", "another's file\n")
        with open(os.path.join(folder, "usr/local", MANIFEST), "a") as file:
            file.write(f"../../../outside\n../../etc/kept\n{kept}\n")
        done = self.install("--destdir", folder, "--uninstall")
        self.assertEqual((done.status, done.error_text), (0, ""), done)
        left = tree(folder)
        self.assertTrue(os.path.exists(outside), "a file outside the prefix is left")
        self.assertEqual({path: left.get(path) for path in before}, before)
        self.assertEqual(files(left).keys() - before.keys(), {mine})
        done = self.install("--destdir", folder, "--uninstall")
        self.assertEqual((done.status, "nothing is installed" in done.error_text), (1, True), done)

    def test_interrupted(self) -> None:
        """What stopped half-way can be removed."""
        source, folder = self.small_copy("damaged", "commands/lib", "docs"), self.path("half")
        shutil.copy(os.path.join(source, "VERSION"), os.path.join(source, "man", "zzz.1"))
        script = self.read("damaged/packaging/install")
        # This copy of the script stops at one file, as if it was killed there.
        begun = b"    os.replace(new, path)"
        killed = b"    if path.endswith('/zzz.1'):\n        os.kill(os.getpid(), 9)\n" + begun
        self.assertIn(begun, script)
        self.write("damaged/packaging/install", script.replace(begun, killed), 0o755)
        done = self.run_install(folder, source=source)
        self.assertNotEqual(done.status, 0)
        self.assertGreater(len(files(tree(folder))), 10)
        self.removes_all(folder)

    def test_unwritable(self) -> None:
        """What cannot be written is refused before a file is."""
        shut = self.path("shut/usr")
        os.makedirs(shut)
        os.chmod(shut, 0o555)
        done = self.run_install(self.path("shut"), source=self.small, **rights())
        self.refuses("no rights", shut + "/local", done, f"{shut}/local", "--prefix")

    def test_in_the_way(self) -> None:
        for name, path in (("folder", "bin/aide-compare/x"), ("file", "share")):
            self.write(f"{name}/usr/local/{path}", "")
            before = files(tree(self.path(name)))
            done = self.run_install(self.path(name), source=self.small)
            self.assertEqual((done.status, f"/usr/local/{path[:16]}" in done.error_text), (1, True))
            self.assertEqual(files(tree(self.path(name))), before)

    def test_refusals(self) -> None:
        """What cannot work is refused before anything is written."""
        folder = self.path("refused")
        prefixes = ["usr", "/a b", "/a/../b", "/a|b"]
        words = [["--prefix", prefix] for prefix in prefixes] + [["--prefix"], ["--prefix="]]
        for arguments in (*words, ["--destdir"], ["--nonsense"], ["more"]):
            done = self.run_install(folder, *arguments)
            self.assertEqual((done.status, done.output), (2, b""), (arguments, done))
            self.assertFalse(os.path.exists(folder), arguments)
        alone = self.write("alone/aide", "a program\n", 0o755)
        for program, missing in (
            (self.path("aide-nowhere"), self.path("aide_lines-nowhere")),
            (alone, alone + "_lines"),
            (self.path("nowhere"), "begins with aide"),
        ):
            done = self.install("--destdir", folder, "--program", program)
            self.refuses("a program that is not there", folder, done, missing)
        os.rename(alone, alone + "_lines")
        done = self.install("--destdir", folder, "--program", alone)
        self.refuses("one of two programs", folder, done, f"No such file or directory: {alone!r}")
        done = self.run_install(folder, "--lines-only", "--program", alone, source=self.small)
        self.assertEqual((done.status, done.error_text), (0, ""), done)
        done = self.install("--help")
        self.assertEqual((done.status, "--uninstall" in done.output_text), (0, True), done)
        self.assertIn("16 minutes", done.output_text)

    def test_byte_code(self) -> None:
        """Byte code is made below a prefix, is in step with the modules, and goes with them."""
        source, prefix = self.small_copy("coded", "contrib", "docs"), self.path("code")
        modules = os.path.join(source, "commands/lib/aide_compare")
        # Its text is edited when it is installed.
        table = "TABLE = '/usr/local/share/aide-compare/severity.conf'\n"
        self.write("coded/commands/lib/aide_compare/show/former.py", table)
        self.write("coded/commands/lib/aide_compare/show/__pycache__/gone.cpython-39.pyc", "")
        byte_code.install(self, "a first time", source, prefix)
        for change in ("nothing", "two modules"):
            if change == "two modules":
                os.remove(os.path.join(modules, "show/former.py"))
                self.write("coded/commands/lib/aide_compare/show/later.py", "VALUE = 1\n")
            byte_code.install(self, "again, with %s changed" % change, source, prefix)
        pair = [os.path.join(source, f"examples/small_tree/{name}.db") for name in ("old", "new")]
        command = [byte_code.PYTHON, "-ISv", os.path.join(prefix, "bin/aide-compare")]
        done = self.run_words([*command, *pair])
        loaded = re.findall(r"^# code object from '?(\S*?)'?$", done.error_text, re.M)
        own = [path for path in loaded if "/aide_compare/" in path]
        self.assertGreater(len(own), 10, done)
        self.assertEqual([path for path in own if not path.endswith(".pyc")], [])
        done = self.install("--prefix", prefix, "--uninstall", source=source)
        self.assertEqual((done.status, files(tree(prefix))), (0, {}), done)
