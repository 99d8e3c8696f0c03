"""Files that an upgraded package no longer has: they are expected to go if dpkg's former list, which
dpkg-deb makes here, is what the old database has. And former configuration files under another
name."""
from __future__ import annotations

import base64
import subprocess

from tests.commands.signed_archive import INFO, ONE, TWO, ArchiveCase, Built
from tests.lib.answer import Answer

OWN = "multi-tool"
GONE = b"/usr/share/multi/gone"
LINK = b"/usr/share/multi/alias"
SOURCE = b"/usr/share/multi/gone.py"
COMPILED = b"/usr/share/multi/__pycache__/gone.cpython-311.pyc"
FOREIGN = b"/usr/share/multi/of-another"


class Removed(ArchiveCase):
    """A package has lost three files, one of them compiled, with an upgrade."""

    def setUp(self) -> None:
        super().setUp()
        self.former = self.made("1").file(GONE, ONE).file(SOURCE, ONE).link(LINK, b"gone")
        self.former.build(self)
        old = self.place.old
        old.directory(b"/usr/share/multi").file(b"/usr/share/multi/kept", ONE)
        old.file(GONE, ONE).file(SOURCE, ONE).link(LINK, b"gone").file(COMPILED, ONE)
        self.place.new.directory(b"/usr/share/multi").file(b"/usr/share/multi/kept", TWO)
        self.place.new.file(b"/usr/share/multi/came", TWO)
        self.place.package(self.made("2").file(b"/usr/share/multi/came", TWO))
        self.place.listed(OWN, "2")
        old.file(INFO + OWN.encode() + b".list", self.list_of(self.former))

    def made(self, version: str) -> Built:
        return Built(OWN, version).file(b"/usr/share/multi/kept", TWO)

    def list_of(self, built: Built) -> bytes:
        """The list that dpkg makes of a package."""
        name = f"mirror/pool/{built.name}_{built.version}_{built.architecture}.deb"
        words = ["dpkg-deb", "--fsys-tarfile", self.path(name)]
        tar = subprocess.run(words, check=True, capture_output=True).stdout
        listed = subprocess.run(["tar", "t"], input=tar, check=True, capture_output=True).stdout
        paths = [line[1:].rstrip(b"/") or b"/." for line in listed.splitlines()]
        return b"".join(path + b"\n" for path in paths)

    def answer(self) -> Answer:
        self.place.sign()
        answer = self.place.ask()
        self.expect("archive", answer, 0)
        return answer

    def test_files_of_the_former_list_go(self) -> None:
        self.place.expect(self.answer(), "trusted", GONE, SOURCE, LINK, COMPILED)

    def test_file_that_is_still_there_stays(self) -> None:
        """The list is then another one, so nothing is known."""
        self.place.new.file(SOURCE, ONE)
        self.place.expect(self.answer(), "open", GONE, LINK)

    def test_file_that_another_package_had_leaves_all_open(self) -> None:
        self.place.old.file(FOREIGN, ONE)
        self.place.expect(self.answer(), "open", FOREIGN, GONE, LINK, COMPILED)

    def test_packages_that_share_a_directory(self) -> None:
        """What one of them has lost is not taken for the other one's, whichever comes first."""
        gone = b"/usr/share/another/gone"
        kept = {b"/usr/share/multi/shared": TWO, b"/usr/share/another/kept": TWO}
        former, built = Built("another", "1").file(gone, ONE), Built("another", "2")
        self.place.listed("another", "2")
        for path, content in kept.items():
            former.file(path, content)
            built.file(path, content)
            for night in (self.place.old, self.place.new):
                night.directory(b"/usr/share/another").file(path, content)
        former.build(self)
        self.place.package(built)
        self.place.old.file(gone, ONE).file(INFO + b"another.list", self.list_of(former))
        self.place.expect(self.answer(), "trusted", gone, GONE, LINK)

    def test_former_list_that_the_old_database_has_otherwise(self) -> None:
        text = self.list_of(self.former).replace(b"/kept\n", b"/kept2\n")
        self.place.old.file(INFO + OWN.encode() + b".list", text)
        self.place.expect(self.answer(), "open", GONE, LINK, COMPILED)

    def test_former_configuration_is_set_aside(self) -> None:
        """It has the content and the rights that it had, and only below /etc."""
        for path in (b"/etc/multi.conf", b"/usr/share/multi/kept", b"/etc/multi"):
            self.place.new.file(path + b".dpkg-old", ONE, 0o100640, gid=4)
        self.place.old.file(b"/etc/multi.conf", ONE, 0o100640, gid=4)
        self.place.new.file(b"/etc/multi.conf", TWO, 0o100640, gid=4)
        answer = self.answer()
        aside = b"/etc/multi.conf.dpkg-old"
        self.place.expect(answer, "trusted", aside)
        self.place.expect(answer, "open", b"/usr/share/multi/kept.dpkg-old", b"/etc/multi.dpkg-old")
        for content, mode, more in ((TWO, 0o100640, 4), (ONE, 0o100644, 4), (ONE, 0o100640, 0)):
            self.place.new.file(aside, content, mode, gid=more)
            self.place.expect(answer, "open", aside)

    def test_what_is_no_plain_file_is_not_set_aside(self) -> None:
        """No program with rights of its own, no link and no directory."""
        right = base64.b64encode(b"x").decode()
        for night in (self.place.old, self.place.new):
            night.file(b"/etc/program", ONE, 0o104755)
            night.file(b"/etc/capable", ONE, 0o100755, capabilities=right)
            night.link(b"/etc/link", b"gone").directory(b"/etc/directory")
        new = self.place.new
        new.file(b"/etc/program.dpkg-old", ONE, 0o104755)
        new.file(b"/etc/capable.dpkg-old", ONE, 0o100755, capabilities=right)
        new.link(b"/etc/link.dpkg-old", b"gone").directory(b"/etc/directory.dpkg-old")
        names = (b"program", b"capable", b"link", b"directory")
        aside = [b"/etc/" + name + b".dpkg-old" for name in names]
        self.place.expect(self.answer(), "open", *aside)
