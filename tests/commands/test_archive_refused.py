"""The database of a signed archive: what is refused, which keys count, and what is written."""
from __future__ import annotations

import hashlib
import os
import shutil

from tests.commands.sandbox import NOBODY
from tests.commands.signed_archive import ARCHIVE, INFO, LIBRARY, MISSING, ODD, ONE, SUITE, TOOL
from tests.commands.signed_archive import TWO, ArchiveCase, Built


class ArchiveRefusedTest(ArchiveCase):
    def test_limits(self) -> None:
        """An index may be large. gpgv that prints without end, or never ends, is ended."""
        bare = "Package: bare\nVersion: 1\nArchitecture: all\n"  # Nobody wants its other fields.
        self.place.built[0].fields += 20000 * f"\n\n{bare}Description: \U0001f511 {1000 * 'x'}"
        self.place.sign()
        self.set_names("commands.archive", MAX_MEMORY=120 << 20)  # It is decoded in parts.
        self.applied()
        for number, words in (1, ("yes",)), (3, ("sh", "-c", "yes >&3")):
            self.set_names("changes.signed", GPGV=words, MAX_RELEASE=1 << 20)
            self.not_made(b"gpgv prints more than 1048576 bytes")
        self.set_names("changes.signed", GPGV=("sleep", "1000"))
        self.set_names("commands.archive", MAX_SECONDS=2)
        self.write("made.db", b"of another night\n")
        self.not_made(b"it took more than 2 seconds", 18, "--output=made.db")
        self.assertEqual(self.read("made.db"), self.place.old.database())

    def test_unsigned(self) -> None:
        """What no trusted key has signed is refused; nothing is written then."""
        place = self.place
        release = SUITE + "/InRelease"
        told = b"no key of the keyrings that signed"
        place.sign(key="other")
        self.not_made(told)
        place.sign()
        signed = self.read(release)
        for text in (
            signed.replace(b"Origin: Trial", b"Origin: Other"),
            self.read("release"),
            signed + signed,
            signed[: len(signed) // 2],
            b"",
        ):
            self.write(release, text)
            self.not_made(told)

    def test_not_as_signed(self) -> None:
        """An index or a package that is not as it was signed is refused."""
        place = self.place
        told = b"Packages is not as it was signed"
        place.sign(index=b"Package: evil\n")
        self.not_made(told)
        # A text before the signed one names the index.
        digest = hashlib.sha256(b"Package: evil\n").hexdigest()
        line = f" {digest} 14 main/binary-amd64/Packages\n".encode()
        self.write(SUITE + "/InRelease", line + self.read(SUITE + "/InRelease"))
        self.not_made(told)
        place.sign()
        package = "mirror/pool/tool_2_amd64.deb"
        whole = self.read(package)
        for text in (whole[:-1] + bytes([whole[-1] ^ 1]), whole + b"more"):
            self.write(package, text)
            self.not_made(b"tool_2_amd64.deb is not as it was signed")
        place.built[0].fields = place.built[0].fields.replace("Filename", "Other")
        place.sign()
        self.not_made(b"InRelease: a package lacks a field")

    def test_expired(self) -> None:
        line = "Valid-Until: Sat, 01 Jan %d 00:00:00 UTC\n"
        self.place.sign(more=line % 2022)
        self.not_made(b"was valid until Sat, 01 Jan 2022")
        self.place.sign(more=line % 2095)
        self.applied()

    def test_above_mirror(self) -> None:
        """A signed path that leads out of the mirror is not followed."""
        built = self.place.built[0]
        built.fields = built.fields.replace("pool/", "../pool/")
        shutil.copytree(self.path("mirror/pool"), self.path("pool"))
        self.place.sign()
        self.applied(told=MISSING)

    def test_architectures(self) -> None:
        """Only packages of the architecture of the machine's packages count, or of all."""
        place = self.place
        files = place.built
        place.built = []
        place.package(Built("tool", "2", "arm64").file(TOOL, b"of arm64\n", 0o755))
        place.package(Built("lib", "3", "i386").file(b"/lib/multi/lib.so", b"of i386\n"))
        place.package(Built("lib", "2", "arm64").file(b"/usr/bin/arm64", TWO))
        place.package(Built("data", "2", "all").file(b"/usr/share/tool/a", TWO))
        foreign = place.built
        place.built = foreign + files
        place.listed("data", "2")
        place.new.file(b"/usr/share/tool/a", TWO)
        place.old.file(b"/usr/share/tool/a", ONE)
        place.sign()
        place.expect(place.ask(), "trusted", TOOL, ODD, LIBRARY, b"/usr/share/tool/a")
        place.built = [*foreign, *files[1:]]
        place.came("lib:arm64", "2")
        place.new.file(TOOL, b"of arm64\n", 0o100755)
        place.sign()
        answer = self.applied(told=b"no signed index has it: lib:arm64\n")
        self.assertIn(b"no signed index has it: tool\n", answer.errors)
        place.expect(answer, "open", TOOL)
        # Of several the one that most packages have, and of another one those with its name.
        place.old.file(INFO + b"libc6:amd64.list").file(INFO + b"lib:arm64.list")
        place.listed("lib:arm64", "2")
        answer = self.applied(told=b"no signed index has it: tool\n")
        self.assertNotIn(b"arm64", answer.errors)
        place.expect(answer, "open", TOOL)

    def test_output(self) -> None:
        """A file is replaced by what was made; by the old database if that fails, so that nothing
        is silent that was not signed."""
        place = self.place
        place.sign()
        made = place.ask().output
        old = place.old.database()
        self.write("made.db", b"of another night\n")
        answer = self.applied("--output", "made.db")
        self.assertEqual((answer.output, self.read("made.db")), (b"", made))
        mode = os.stat(self.path("made.db")).st_mode & 0o7777
        self.assertEqual(mode, 0o600, "nobody else reads what a database has")
        self.write("host-new.db", b"no database\n")
        source = f"--from={self.path(SUITE)}"
        for name, status in (("host-new.db", 24), ("gone.db", 18)):
            self.write("made.db", b"of another night\n")
            self.refused(status, None, ARCHIVE, source, "--output=made.db", "host-old.db", name)
            self.assertEqual(self.read("made.db"), old, name)
        self.refused(18, None, ARCHIVE, source, "--output=none/made.db", "host-old.db", "gone.db")
        self.assertFalse(os.path.lexists(self.path("none")), "no directory is made")
        self.not_made(b"--output is one of the databases", 15, "--output", "./host-new.db")
        self.write("made.db.old", b"the new one of the host\n")
        self.refused(15, None, ARCHIVE, source, "--output=made.db", "host-old.db", "made.db.old")
        self.assertEqual(self.read("made.db.old"), b"the new one of the host\n")
        self.write("made.db", b"of another night\n")
        self.set_names("changes.signed", GPGV=("sh", "-c", "kill -9 $PPID"))
        place.ask("--output", "made.db")
        self.assertEqual(self.read("made.db"), old, "also of a run that is killed")
        few = b"@@begin_db\n@@db_spec name size\n/a 1\n@@end_db\n"
        self.write("few.db", few)
        answer = self.call(ARCHIVE, source, "few.db", "few.db")
        self.assertEqual((answer.status, answer.output), (0, few), answer)

    def test_user(self) -> None:
        """Root may give up its privileges first. The file is that of the directory's user."""
        self.needs_root()
        self.place.sign()
        os.makedirs(self.path("his"))
        os.chown(self.path("his"), NOBODY, NOBODY)
        for words in ((), ("--user=nobody",)):
            self.applied(*words, "--output=his/made.db")
            self.assertEqual(os.stat(self.path("his/made.db")).st_uid, NOBODY, words)
        os.chmod(self.path("host-old.db"), 0o600)
        words = ("--user=nobody", f"--from={self.path(SUITE)}", "host-old.db", "host-new.db")
        self.answered(18, None, b"Permission denied", ARCHIVE, *words)

    def test_keyrings(self) -> None:
        """A keyring, and what its name leads to, is as both databases have it, or in neither."""
        place = self.place
        place.sign()
        keys = self.read("keys.gpg")
        file, path = (os.fsencode(self.path(name)) for name in ("keys.pgp", "keys.gpg"))
        os.rename(path, file)
        os.symlink(file, path)
        for night in (place.old, place.new):
            night.link(path, file)
        for texts, statuses in (
            ((keys, keys), [0, 0]),
            ((b"other", keys), [18, 18]),
            ((keys, b"other"), [18, 18]),
            ((b"", keys), [18, 18]),
            ((keys, b""), [18, 18]),
            ((b"", b""), [0, 18]),
        ):
            for night, text in zip((place.old, place.new), texts):
                night.entries.pop(file, None)
                if text:
                    night.file(file, text)
            found = [place.ask(keyring=name).status for name in ("keys.pgp", "keys.gpg")]
            self.assertEqual(found, statuses, texts)
        for night in (place.old, place.new):
            night.entries.pop(path, None)
        os.chmod(self.path("keys.gpg"), 0o666)
        self.not_made(b"")
        os.chmod(self.path("keys.gpg"), 0o644)
        self.not_made(b"", keyring="nowhere")
        self.set_names("commands.archive", KEYRINGS=(self.path("nowhere"), self.path("keys.gpg")))
        words = "--from=dists/stable", "../host-old.db", "../host-new.db"
        self.answered(0, None, None, ARCHIVE, *words, before="os.chdir('mirror')")
        self.write("keys.asc", b"-----BEGIN PGP PUBLIC KEY BLOCK-----\n")
        self.not_made(b"gpg --dearmor", keyring="keys.asc")
        self.not_made(b"", 15, "more")
        self.write("host-old.db", b"no database\n")
        self.refused(24, None, ARCHIVE, "--from=mirror", "host-old.db", "host-new.db")
