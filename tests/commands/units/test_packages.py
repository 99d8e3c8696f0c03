"""What packages' records say of paths and contents, and who may write them; where links point."""
from __future__ import annotations

import hashlib
import io
import os
import tarfile
from unittest import mock

from tests.commands.made_up import Package
from tests.commands.units.calls import ModuleTest

from aide_compare.base.ending import Fault
from aide_compare.base.files import BLOCK
from aide_compare.changes import recorded, signed
from aide_compare.changes.applied import members_of
from aide_compare.changes.recorded import Dpkg, Matcher, Members
from aide_compare.changes.table import Table
from aide_compare.lines.change import Change, Value, Values
from aide_compare.show import brief, digest

TOOL = Package("tool", "2", {b"/usr/bin/tool": b"2"}, {b"/etc/tool": b"2", b"/etc/more": b"2"})
GONE = Package("gone", "1", {b"/usr/bin/gone": b"1"}, state="deinstall ok config-files")


class MembersTest(ModuleTest):
    def test_members(self) -> None:
        """A member of a package that is read without end is refused."""
        for kind, size in ((tarfile.GNUTYPE_SPARSE, 0), (tarfile.REGTYPE, -1)):
            member = tarfile.TarInfo("./a")
            member.type, member.size = kind, size
            file = io.BytesIO(member.tobuf(tarfile.GNU_FORMAT))
            self.fails(18, "dpkg does not know", list, members_of(file))

    def test_versions(self) -> None:
        """A dpkg that fails says of no version that it is the newest one."""
        with mock.patch.object(signed, "run_tool", return_value=2):
            self.fails(18, "dpkg cannot compare", signed.is_less, "1", "2")


class PackagesTest(ModuleTest):
    def setUp(self) -> None:
        super().setUp()
        for package in (TOOL, GONE):
            self.write(f"dpkg/info/{package.name}.list", package.paths())
            self.write(f"dpkg/info/{package.name}.md5sums", package.sums())
        self.write("dpkg/status", TOOL.status() + b"\n" + GONE.status())

    def members(self) -> dict[str, Members]:
        return dict(Dpkg(self.path("dpkg")).members({b"/usr/bin/tool\n": 1}))

    def test_others(self) -> None:
        """No record is read that others can write, and none but a regular file."""
        for name in ("status", "info/tool.list", "info/tool.md5sums"):
            path = self.path(f"dpkg/{name}")
            os.chmod(path, 0o664)
            with self.subTest(name), self.assertRaisesRegex(Fault, "other users can write"):
                self.members()
            os.chmod(path, 0o644)
            os.rename(path, path + ".own")
            os.symlink(path + ".own", path)
            self.assertRaises(Fault, self.members)
            os.unlink(path)
            os.mkfifo(path, 0o600)
            self.assertRaises(Fault, self.members)
            os.rename(path + ".own", path)

    def test_bound(self) -> None:
        """All records together have so many bytes, dpkg's status and what it has of each package
        that is asked too, and so many lists are read, in any blocks."""
        size = os.path.getsize(self.write("dpkg/info/tool.list", TOOL.paths() + b"/more\n" * 100))
        size += len(TOOL.sums() + GONE.paths() + TOOL.status().strip())
        status = os.path.getsize(self.path("dpkg/status"))
        found = {"tool 2": {b"/usr/bin/tool\n": "c81e728d9d4c2f636f067f89cc14862c"}}
        bounds = {"MAX_BYTES": size, "MAX_STATUS": status}
        for name, most in {**bounds, "MAX_LISTS": 2, "BLOCK": 48}.items():
            with mock.patch.object(recorded, name, most):
                self.expect(f"found, {name} {most}", self.members(), found)
        with mock.patch.object(recorded, "MAX_LISTS", 1):
            self.gives({}, self.members)
        for name, most in bounds.items():
            with mock.patch.object(recorded, name, most - 1):
                self.assertRaisesRegex(Fault, "are too large", self.members)
        os.unlink(self.path("dpkg/info/tool.md5sums"))
        self.gives({"tool 2": {b"/usr/bin/tool\n": ""}}, self.members)

    def test_digests(self) -> None:
        """What a package has of a file is a digest, and nothing where a link could point to."""
        for text, of in ((b">" + b"0" * 31, ""), (b"0" * 32, "0" * 32)):
            self.write("dpkg/info/tool.md5sums", text + b"  usr/bin/tool")  # Without its end.
            self.gives({"tool 2": {b"/usr/bin/tool\n": of}}, self.members)

    def test_names(self) -> None:
        """No more names of packages are tried than there could be room for."""
        with mock.patch("textwrap.wrap", return_value=[]) as wrapping:
            brief.names_lines("New packages", ["a"] * 100000, digest.MAIL)
        self.assertLess(len(wrapping.call_args.args[0]), 5000)


LINK = Change(b"/a/b", "added", "Link", "", {}, {})
FILE = LINK._replace(type="File")


class RecordedTest(ModuleTest):
    def test_names(self) -> None:
        targets = Matcher(Table(), lambda _: LINK).targets
        rows: list[tuple[Value, bytes]] = [("c", b"/a/c"), (b"../../c", b"/c"), ("//c/.", b"/c")]
        for link, target in rows:
            self.gives({target + b"\n"}, targets, LINK._replace(new={"Lname": link}))
        unknown: list[Values] = [{"Lname": None}, {"Lname": ""}, {}]
        for new in unknown:
            self.gives(set(), targets, LINK._replace(new=new))

    def test_contents(self) -> None:
        """A content that only the file on this machine says is read, as long as there is room."""
        text = b"x" * (BLOCK + 10)
        path = self.write("file", text).encode()
        kinds = ("MD5", "SHA1", "SHA256", "SHA3-512")
        digests = {name: hashlib.new(name, text).hexdigest() for name in kinds}
        own, other = digests["MD5"], "0" * 32
        strong: Values = {name: digests[name] for name in kinds[2:]}
        rows: list[tuple[str, Values, str, int, bool]] = [
            ("the same digest", {"MD5": own}, own, 0, True),
            ("another one", {"MD5": own}, other, 11, False),
            ("the longest one", {"SHA512": own * 4}, own * 4, 0, True),
            ("read", strong, own, 10, True),
            ("read, another one", strong, other, 11, False),
            ("no room", strong, own, 9, False),
            ("no digest", {}, own, 11, False),
            ("a weak digest", {"SHA1": digests["SHA1"]}, own, 11, False),
            ("another content", {"SHA256": digests["SHA256"][::-1]}, own, 11, False),
            ("only listed", strong, "", 11, False),
        ]
        for label, new, of, room, fits in rows:
            matcher = Matcher(Table(), lambda _: LINK)
            self.expect("the room", matcher.remaining, 2 << 30)
            matcher.remaining = BLOCK + room
            self.expect(label, matcher.has(FILE._replace(path=path, new=new), of, {}), fits)
        self.gives(False, matcher.has, FILE._replace(new=strong), own, {})
        self.gives(False, matcher.has, FILE._replace(type="Directory", kind="changed"), "", {})
        one = FILE._replace(path=path, new=strong)
        matcher.remaining = 2 * BLOCK
        said = [matcher.has(one, own, {}) for _ in range(2)]
        self.expect("room for one of two", said, [True, False])
