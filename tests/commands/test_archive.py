"""The database of a signed archive: what it agrees with, and what it never does."""
from __future__ import annotations

import base64
import os
import shutil
from typing import Any

from tests.commands.made_up import Package, write_records
from tests.commands.signed_archive import APTS_LISTS, CONFIGURATION, INDEXES, INFO, KEPT, LIBRARY
from tests.commands.signed_archive import MISSING, ODD, ONE, SITE, SUITE, TOOL, TWO, ArchiveCase
from tests.commands.signed_archive import Built, keep_as_apt, keep_indexes
from tests.oracle.database import database_of, first_fault


class ArchiveTest(ArchiveCase):
    def test_agrees(self) -> None:
        """What the packages have agrees, wherever it is; configuration and what went stay open."""
        place = self.place
        place.sign()
        answer = self.applied()
        self.assertIsNone(first_fault(answer.output), "it is a sound database")
        for name in ("true", "plain", "alias", "zero"):
            place.expect(answer, "trusted", b"/usr/bin/" + name.encode())
        new = (b"/usr/share/tool/new", b"/usr/share/tool/new/file")
        place.expect(answer, "trusted", TOOL, LIBRARY, ODD, *new)
        place.expect(answer, "open", CONFIGURATION, b"/usr/share/tool/gone")
        place.expect(answer, "old", b"/usr/bin/passwd")
        place.new.file(INFO + b"tool.md5sums", b"sums of 2")
        place.new.file(INFO + b"lib:amd64.list", b"/.\n/lib\n/lib/multi\n/lib/multi/lib.so\n")
        place.expect(answer, "trusted", INFO + b"tool.md5sums", INFO + b"lib:amd64.list")

    def test_differs(self) -> None:
        """Nothing else agrees: another content, owner, mode, or a right that the package gives."""
        place = self.place
        place.sign()
        answer = self.applied()
        rights: list[dict[str, Any]] = [
            {"uid": 33},
            {"gid": 33},
            {"capabilities": base64.b64encode(b"x").decode()},
            {"perm": "100775"},
        ]
        for path, mode in ((TOOL, 0o100755), (b"/usr/share/tool/new/file", 0o100644)):
            for more in rights:
                place.new.file(path, TWO, mode, **more)
                self.assertEqual(place.standing(answer, path), "open", (path, more))
            place.new.file(path, b"evil", mode)
            place.expect(answer, "open", path)
        # An administrator took a set-ID bit away.
        place.new.file(b"/usr/bin/plain", TWO, 0o104755)
        place.new.file(LIBRARY, b"of another version\n")
        place.expect(answer, "open", b"/usr/bin/plain", LIBRARY)

    def test_index_of_a_directory(self) -> None:
        """The file system sets this flag of a directory, and no other one."""
        place = self.place
        place.sign()
        extents, indexed, immutable = 0x80000, 0x1000, 0x10
        rows = {
            b"/srv/grown": (0o40755, extents | indexed, "trusted"),
            b"/srv/immutable": (0o40755, extents | indexed | immutable, "open"),
            b"/srv/bare": (0o40755, indexed, "open"),
            b"/srv/writable": (0o40777, extents | indexed, "open"),
            b"/srv/file": (0o100644, extents | indexed, "open"),
        }
        for path, (mode, flags, _) in rows.items():
            for night, more in ((place.old, extents), (place.new, flags)):
                rights = mode if night is place.new else mode & 0o7777755
                if mode >> 12 == 8:
                    night.file(path, b"", rights, e2fsattrs=more)
                else:
                    night.directory(path, rights, e2fsattrs=more)
        answer = self.applied()
        for path, (_, _, want) in rows.items():
            place.expect(answer, want, path)

    def test_path_of_two(self) -> None:
        """A path that two packages have stays open, whichever content it has."""
        place = self.place
        place.package(Built("tool-more", "1").file(TOOL, b"of two packages\n", 0o755))
        place.listed("tool-more", "1")
        place.sign()
        answer = place.ask()
        for content in (TWO, b"of two packages\n"):
            place.new.file(TOOL, content, 0o100755)
            place.expect(answer, "open", TOOL)

    def test_not_applied(self) -> None:
        """Packages that are not signed are named first; then older ones, and what was removed or
        was there before in part. Nothing of them is applied."""
        place = self.place
        rows = {
            "local": "no signed index has it: local",
            "fell": "fell: it is not 2, the newest one of the archive",
            "late": "late: it is not 2, the newest one of the archive",
            "lost": "lost: the file of 2, the newest one of the archive, is not there",
            "bare": "it is new: bare",
            "purged": "it is new: purged",
            "went": "it was removed: went",
        }
        versions = {"late": "1", "fell": "3", "local": "1+own"}
        endings = (b".list", b".md5sums")
        for name in (*rows, "same"):
            place.listed(name, versions.get(name, "2"))
            path = b"/usr/bin/" + name.encode()
            if name != "local":
                place.package(Built(name, "2").file(path, TWO, 0o755))
            place.new.file(path, TWO, 0o100755)
        del place.new.entries[INFO + b"bare.md5sums"]
        for ending in endings:
            del place.old.entries[INFO + b"bare" + ending]
            del place.new.entries[INFO + b"went" + ending]
            place.new.entries[INFO + b"same" + ending] = place.old.entries[INFO + b"same" + ending]
        del place.old.entries[INFO + b"purged.md5sums"]  # dpkg keeps the list of a removed package.
        os.unlink(self.path("mirror/pool/lost_2_amd64.deb"))
        place.sign()
        answer = place.ask("-q")
        notes = [f"aide-compare archive: not applied, {line}\n".encode() for line in rows.values()]
        self.expect("packages that are not applied", answer, 0, errors=b"".join(notes))
        place.expect(answer, "open", *(b"/usr/bin/" + name.encode() for name in (*rows, "same")))
        place.expect(answer, "trusted", TOOL)

    def test_sources(self) -> None:
        """Packed indexes, and what apt keeps of indexes and packages, one larger than memory."""
        place = self.place
        for ending in (".gz", ".xz"):
            place.sign(ending=ending)
            place.expect(place.ask(), "trusted", TOOL)
        place.built[0].more = 64 << 20
        place.built[0].build(self)
        self.set_names("commands.archive", MAX_MEMORY=64 << 20)
        place.sign()
        keep_as_apt(self, place)
        place.expect(self.applied(sources=("lists", "archives")), "trusted", TOOL)
        self.applied(sources=("lists",), told=MISSING)
        kept = self.path(f"lists/{SITE}main_binary-amd64_Packages")
        os.rename(kept, kept + ".lz4")
        self.not_made(b"_Packages: No such file", sources=("lists", "archives"))
        os.rename(kept + ".lz4", kept)
        place.expect(self.applied(sources=("lists", "archives")), "trusted", TOOL)

    def test_known_indexes(self) -> None:
        """Of apt's lists those count that the old database knows, all of them, and for the suite
        for which they were signed; of a suite, the components that it knows; no others."""
        place = self.place
        place.sign()
        keep_as_apt(self, place)
        place.package(Built("tool", "3").file(TOOL, b"of another suite\n", 0o755))
        place.sign(suite="sid")
        keep_indexes(self, f"lists/{SITE.replace('stable', 'sid')}")
        both = ("lists", "archives")
        place.expect(self.applied(sources=both), "trusted", TOOL)
        keep_indexes(self, f"lists/{SITE}")
        self.not_made(b"is signed for another suite than stable", sources=both)
        place.sign()
        shutil.copytree(self.path(SUITE), self.path("mirror/dists/sid"))
        self.not_made(b"is signed for another suite than sid", sources=("mirror/dists/sid",))
        keep_indexes(self, f"lists/{SITE}")
        for name in reversed(INDEXES):
            path = self.path(f"lists/{SITE}{name}")
            os.rename(path, self.path(f"archives/{SITE}{name}"))
            self.not_made(f"the signed file {path}: No such file".encode(), sources=both)
        shutil.copytree(self.path(SUITE), self.path("archives"), dirs_exist_ok=True)
        os.makedirs(self.path("nothing"))
        for sources in (("archives",), ("nothing",)):
            self.not_made(b"--from names no signed index", sources=sources)
        keep_indexes(self, f"lists/{SITE}")
        known = [APTS_LISTS + f"{SITE}{name}".encode() for name in INDEXES]
        packed = known[1] + b".lz4"
        del place.old.entries[known[1]]
        place.old.file(packed, ONE)
        os.rename(self.path(f"lists/{SITE}{INDEXES[1]}"), self.path("packed.lz4"))
        self.not_made(b"_Packages: No such file", sources=both)
        del place.old.entries[packed]
        self.applied(sources=both, told=b"no signed index has it: tool\n")
        del place.old.entries[known[0]]
        self.not_made(b"--from names no signed index", sources=both)

    def test_new(self) -> None:
        """The files of a new package are signed, where nothing was before, but no set-ID program.
        Its list is not: it is reported as new."""
        place = self.place
        files = (b"/usr/bin/came", b"/etc/xdg/came", b"/usr/share/tool/b")
        came = Built("came", "2").file(b"/usr/bin/set-id", TWO, 0o4755)
        for path in files:
            came.file(path, TWO)
            place.new.file(path, TWO)
        place.old.file(files[2], ONE)
        place.new.file(b"/usr/bin/set-id", TWO, 0o104755).directory(b"/etc/xdg")
        place.package(came)
        place.came("came", "2")
        listed = b"/.\n/etc\n/etc/xdg\n/etc/xdg/came\n/usr\n/usr/bin\n/usr/bin/came\n"
        listed += b"/usr/bin/set-id\n/usr/share\n/usr/share/tool\n/usr/share/tool/b\n"
        place.new.file(INFO + b"came.list", listed)
        place.sign()
        answer = self.applied("-q", told=b"aide-compare archive: new, signed: came 2\n")
        place.expect(answer, "trusted", *files[:2], b"/etc/xdg", INFO + b"came.md5sums")
        place.expect(answer, "open", files[2], b"/usr/bin/set-id", INFO + b"came.list")
        package = Package("came", "2", {})
        write_records(self, {"status": package.status(), "info/came.list": package.paths()})
        place.came("foreign", "1")
        self.write("made.db", self.applied(told=b"no signed index has it: foreign\n").output)
        words = ("--trusted", "host-old.db", "made.db", "host-old.db", "host-new.db")
        lines = self.call("aide-compare", *words).output.split(b"\n")
        wanted = [b"Unsigned packages: foreign", b"New packages: came"]
        self.assertEqual([line.strip() for line in lines[1:3]], [line.strip() for line in wanted])

    def test_kept_packages(self) -> None:
        """Of the packages that apt keeps the signed ones are expected, and those that a newer one
        has replaced may be gone."""
        place = self.place
        place.sign()
        signed = self.read("mirror/pool/tool_2_amd64.deb")
        names = (b"tool_2_amd64.deb", b"tool_9_amd64.deb", b"lib_2_i386.deb", b"lib_2_amd64.deb")
        for name in names:
            place.new.file(KEPT + name, signed)
        gone = (b"tool_1%3a0_amd64.deb", b"tool_1_amd64.deb", b"tool_2_all.deb", b"other_1_all.deb")
        for name in gone:
            place.old.file(KEPT + name, ONE)
        answer = self.applied(told=b"applied: 23 files\n")
        place.expect(answer, "trusted", KEPT + names[0], KEPT + gone[1])
        rest = (*names[1:], gone[0], *gone[2:])
        place.expect(answer, "open", *(KEPT + name for name in rest))
        place.new.file(KEPT + names[0], signed[:-1] + b"x")
        place.expect(answer, "open", KEPT + names[0])

    def test_links(self) -> None:
        """A directory has the links that the subdirectories of packages make, and that are there
        now. A file system that does not count them has one link for each."""
        place = self.place
        place.package(Built("came", "2").file(b"/usr/share/came/deep/file", TWO))
        place.came("came", "2")
        for path, old, new in (
            (b"/usr/share", 7, 7),
            (b"/usr/share/tool", 3, 3),
            (b"/usr/share/tool/old", 2, None),
            (b"/usr/share/tool/new", None, 2),
            (b"/usr/share/came", None, 3),
            (b"/usr/share/came/deep", None, 2),
            (b"/usr/bin", 2, 3),
        ):
            for night, links in ((place.old, old), (place.new, new)):
                if links is not None:
                    night.directory(path, lcount=links)
        place.sign()
        wanted = {b"/usr/share": 8, b"/usr/share/tool": 3, b"/usr/share/tool/new": 2}
        wanted.update({b"/usr/share/came": 3, b"/usr/share/came/deep": 2, b"/usr/bin": 2})
        self.assertEqual(self.links_of(*wanted), wanted)
        place.old.directory(b"/usr/share", lcount=1)
        self.assertEqual(self.links_of(b"/usr/share"), {b"/usr/share": 1})
        # What a package has, and is not there, explains no other directory.
        del place.new.entries[b"/usr/share/tool/new"]
        self.assertEqual(self.links_of(b"/usr/share/tool"), {b"/usr/share/tool": 2})

    def links_of(self, *paths: bytes) -> dict[bytes, int]:
        """How many links directories have in what was made."""
        entries = database_of(self.place.ask().output).entries
        return {path: entries[path]["n"] for path in paths}
