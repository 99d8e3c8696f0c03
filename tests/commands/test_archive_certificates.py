"""Links of certificates beside signed packages: what Debian's own script makes of certificates is
expected, and nothing else is."""
from __future__ import annotations

import functools
import os
import shutil
import subprocess

from aide_compare.changes import certificates
from aide_compare.changes.certificates import BUNDLE, CONFIGURATION, DIRECTORY, LINKS, LOCAL
from tests.commands.made_up import Night
from tests.commands.signed_archive import ArchiveCase, Built
from tests.lib.answer import Answer
from tests.lib.apart import has_own_mounts

UPDATE = "/usr/sbin/update-ca-certificates"
FORMER = (b"mozilla/Gone_Root.crt", b"mozilla/Kept (Root), One.crt", b"mozilla/Unwanted.crt")
NEW = (b"mozilla/Added_Root.crt", b"mozilla/Kept (Root), One.crt", b"mozilla/Unwanted.crt")
OWN = LOCAL + b"own.crt"
HEAD = b"# certificates\n"


@functools.lru_cache(maxsize=None)
def certificate(name: bytes) -> bytes:
    """A certificate of this name, signed by itself."""
    words = ["openssl", "req", "-x509", "-newkey", "ed25519", "-nodes", "-keyout", "/dev/null"]
    words += ["-subj", "/CN=" + os.path.basename(os.fsdecode(name)), "-days", "3650"]
    return subprocess.run(words, check=True, capture_output=True).stdout


def unmount(path: bytes) -> None:
    subprocess.run(["umount", path], check=True)


class Certificates(ArchiveCase):
    """A package of certificates was upgraded, and its script has run."""

    def setUp(self) -> None:
        super().setUp()
        self.needs("openssl", os.path.basename(UPDATE))
        if not has_own_mounts() or not os.path.exists(os.fsdecode(CONFIGURATION)):
            self.skipTest("it needs root")
        lines = [b"!" + name if b"Unwanted" in name else name for name in FORMER]
        self.former = HEAD + b"".join(line + b"\n" for line in lines)
        self.expected = certificates.configured(self.former, set(NEW))
        self.local = {OWN: certificate(b"own")}
        if not os.path.isdir(os.fsdecode(LOCAL)):
            self.skipTest("not installed: ca-certificates")
        subprocess.run(["mount", "-t", "tmpfs", "tmpfs", os.fsdecode(LOCAL)], check=True)
        self.addCleanup(unmount, LOCAL)
        with open(OWN, "wb") as file:
            file.write(self.local[OWN])
        self.place.listed("ca-certificates", "2")
        built = Built("ca-certificates", "2")
        for name in NEW:
            built.file(DIRECTORY + name, certificate(name))
        self.place.package(built)
        self.night(self.place.old, FORMER, self.former)
        self.night(self.place.new, NEW, self.expected)
        self.show(CONFIGURATION, self.former)

    def show(self, path: bytes, text: bytes) -> None:
        """Has the machine show another file at a path, to this process and its children."""
        own = self.write("shown/" + os.path.basename(os.fsdecode(path)), text)
        subprocess.run(["mount", "--bind", own, os.fsdecode(path)], check=True)
        self.addCleanup(unmount, path)

    def update(self, names: tuple[bytes, ...], configuration: bytes) -> str:
        """Has Debian's script make links for these certificates: their directory."""
        root = self.path("script")
        shutil.rmtree(root, ignore_errors=True)
        for directory in (DIRECTORY, LOCAL, LINKS):
            os.makedirs(root + os.fsdecode(directory))
        for path, text in {
            **{DIRECTORY + name: certificate(name) for name in names},
            **self.local,
        }.items():
            self.write(f"script{os.fsdecode(path)}", text)
        options = {"certsdir": DIRECTORY, "localcertsdir": LOCAL, "etccertsdir": LINKS}
        words = [f"--{name}={root}{os.fsdecode(path)}" for name, path in options.items()]
        words = [word for name in words for word in name.split("=")]
        conf = self.write("script/conf", configuration)
        hooks = self.path("script/hooks")
        os.mkdir(hooks)
        words += ["--certsconf", conf, "--hooksdir", hooks]
        subprocess.run([UPDATE, *words], check=True, capture_output=True)
        return root + os.fsdecode(LINKS)

    def night(self, night: Night, names: tuple[bytes, ...], configuration: bytes) -> None:
        """What AIDE says after the script has run."""
        directory = self.update(names, configuration)
        night.file(CONFIGURATION, configuration)
        night.directory(b"/etc/ssl").directory(LINKS[:-1])
        for path, text in self.local.items():
            night.file(path, text)
        for link in os.listdir(directory):
            place = os.path.join(directory, link)
            path = LINKS + os.fsencode(link)
            if os.path.islink(place):
                target = os.readlink(place).replace(self.path("script"), "").replace("//", "/")
                night.link(path, os.fsencode(target), size=len(target))
            else:
                with open(place, "rb") as file:
                    night.file(path, file.read())

    def answer(self) -> Answer:
        self.place.sign()
        answer = self.place.ask()
        self.expect("archive", answer, 0)
        return answer

    def changed(self) -> list[bytes]:
        """What the script has changed."""
        old, new = self.place.old.entries, self.place.new.entries
        paths = [
            path for path in old.keys() | new.keys() if path.startswith((LINKS, CONFIGURATION))
        ]
        return [path for path in paths if old.get(path) != new.get(path)]

    def test_all_that_the_script_made_is_expected(self) -> None:
        changed = self.changed()
        self.assertEqual(len(changed), 6, changed)  # Two links came, two went, and two files.
        self.place.expect(self.answer(), "trusted", *changed)

    def test_other_links_and_files_stay_open(self) -> None:
        answer = self.answer()
        added = LINKS + b"Added_Root.pem"
        new = self.place.new
        hashed = next(
            path for path in self.changed() if path.endswith(b".0") and path in new.entries
        )
        rows = {
            "to a file that is not signed": (added, b"/tmp/evil.crt"),
            "to another signed one": (added, DIRECTORY + b"mozilla/Unwanted.crt"),
            "by a hash to another name": (hashed, b"Kept_=Root=__One.pem"),
            "by a hash that no certificate has": (LINKS + b"00000000.0", b"Added_Root.pem"),
            "of a certificate that is not wanted": (
                LINKS + b"Unwanted.pem",
                DIRECTORY + b"mozilla/Unwanted.crt",
            ),
        }
        for what, (path, target) in rows.items():
            with self.subTest(what):
                new.link(path, target, size=len(target))
                self.place.expect(answer, "open", path)
        for path, text in (
            (BUNDLE, b"more"),
            (CONFIGURATION, self.expected + b"../../tmp/evil.crt\n"),
        ):
            new.file(path, text)
            self.place.expect(answer, "open", path)

    def test_configuration_that_the_old_database_has_otherwise(self) -> None:
        self.place.old.file(CONFIGURATION, self.former + b"more\n")
        self.place.expect(self.answer(), "open", *self.changed())

    def test_new_certificate_of_the_administrator_stays_open(self) -> None:
        """With its links, and the file with all certificates."""
        self.local[LOCAL + b"more.crt"] = certificate(b"more")
        before = {*self.changed(), BUNDLE}
        self.night(self.place.new, NEW, self.expected)
        came = [path for path in self.changed() if path not in before]
        self.assertEqual(len(came), 2, came)
        self.place.expect(self.answer(), "open", BUNDLE, *came)
        self.place.expect(self.place.ask(), "trusted", CONFIGURATION, LINKS + b"Added_Root.pem")

    def test_two_of_one_subject_stay_open(self) -> None:
        """Which of them is the first depends on the order of a directory."""
        name = b"mozilla/Added_Again.crt"
        twin = certificate.__wrapped__(b"Added_Root.crt")
        made = certificates.made_of(
            {DIRECTORY + NEW[0]: certificate(NEW[0]), DIRECTORY + name: twin}
        )
        self.assertEqual(len(made.numbered), 2, made)
        self.assertEqual(
            sorted(made.links), [LINKS + b"Added_Again.pem", LINKS + b"Added_Root.pem"]
        )
