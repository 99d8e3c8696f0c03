"""The tarball, the Debian package and the one for rpm: the same bytes each time, as packaging/install
installs."""
from __future__ import annotations

import gzip
import io
import os
import re
import shutil
import tarfile
from typing import Any

from tests.lib.answer import Answer
from tests.lib.program_test import slow
from tests.packaging import debian, rpm
from tests.packaging.installation import InstallTest, files, rights, texts, tree

FIXED, LATE = 1767225600, 4000000000
DOCUMENTS = "usr/share/doc/aide-compare/"
# By it an upgrade of Python makes the byte code again.
RUNTIME = "usr/share/python3/runtime.d/aide-compare.rtupdate"
FIELDS = {
    "Package": "aide-compare",
    "Architecture": "amd64",
    "Suggests": "aide",
    "Recommends": "default-mta | mail-transport-agent, gpgv",
}

# The configuration files of the Debian package, and the example that each is.
CONFIGURATION = {
    "etc/aide/aide.conf.d/31_aide_aide-compare": "31_aide_aide-compare",
    "etc/aide-compare/without": "debian.without",
}


def owners_and_times(archive: tarfile.TarFile) -> set[tuple[int, int, int]]:
    return {(one.uid, one.gid, int(one.mtime)) for one in archive.getmembers()}


def files_of(trial: InstallTest, data: bytes, time: int) -> dict[str, tuple[int, bytes]]:
    """The files of a tarball, which has no owner, no user's time and no folder."""
    found = {}
    with tarfile.open(fileobj=io.BytesIO(data)) as archive:
        trial.assertEqual(owners_and_times(archive), {(0, 0, time)})
        for one in archive.getmembers():
            content = archive.extractfile(one)
            assert content, one
            found[one.name] = (one.mode, content.read())
    return found


def try_tarball(trial: InstallTest, path: str) -> None:
    """The tarball has the installed files below one folder. Unpacked, it changes no folder that was
    there, and `--uninstall` removes its files."""
    data = trial.read(path)
    top = f"aide-compare-{trial.version}-x86_64-linux/"
    given = files_of(trial, data, FIXED)
    installed = {top + name: file for name, file in files(tree(trial.first())).items()}
    trial.assertEqual(given.keys() ^ installed.keys(), set())
    trial.assertTrue(given == installed, "the tarball has what is installed")
    trial.assertEqual(list(given), sorted(given), "the tarball is sorted")
    trial.assertEqual(data[4:8], b"\0\0\0\0", "gzip's own time")
    folder = trial.path("unpacked/usr/local")
    os.makedirs(os.path.join(folder, "bin"))
    os.chmod(os.path.join(folder, "bin"), 0o2775)
    words = ["tar", "-xzf", path, "-C", folder, "--strip-components=1"]
    trial.assertEqual(trial.run_words(words), Answer(b"", b"", 0))
    trial.assertTrue(files(tree(folder)) == files(tree(trial.first())), "the tarball is unpacked")
    trial.assertEqual(tree(folder)["bin"][0], 0o2775, "a folder that was there keeps its mode")
    done = trial.install("--uninstall", "--destdir", trial.path("unpacked"))
    trial.assertEqual((done.status, files(tree(folder))), (0, {}), done)


def name_in_package(name: str) -> str:
    """Where the Debian package has what packaging/install installs below /usr."""
    name = re.sub(r"^(usr/share/man/.*)$", r"\1.gz", name)
    return name.replace("aide-compare/CHANGELOG.md", "aide-compare/changelog.gz")


def try_debian(trial: InstallTest, path: str) -> None:
    """The Debian package: its fields, its files, its times, and nothing of /usr/local."""
    done = trial.run_words(["dpkg-deb", "-f", path])
    fields = dict(re.findall(r"^([\w-]+): (.*)$", done.output_text, re.M))
    trial.assertEqual({**fields, **FIELDS, "Version": trial.version + "-1"}, fields)
    trial.assertEqual(fields["Depends"].count("python3:any"), 1, fields)
    folder = path + ".tree"
    done = trial.run_words(["dpkg-deb", "-R", path, folder])
    trial.assertEqual(done.status, 0, done)
    found = tree(folder)
    inside = {name: data for name, (_, data) in files(found).items()}
    kept = {name: data for name, data in inside.items() if not name.startswith("DEBIAN/")}
    for name, example in CONFIGURATION.items():
        trial.assertEqual(kept.pop(name), kept[DOCUMENTS + "examples/aide/" + example], name)
    listed = inside["DEBIAN/conffiles"].decode().splitlines()
    trial.assertEqual(sorted(listed), sorted(f"/{name}" for name in CONFIGURATION))
    wanted = files(trial.installed("of-usr", "--prefix", "/usr"))
    wanted.pop("usr/lib/aide-compare/installed")
    named = {DOCUMENTS + name for name in ("changelog.Debian.gz", "copyright", "README.Debian")}
    named |= {"usr/share/lintian/overrides/aide-compare", RUNTIME}
    named |= set(map(name_in_package, wanted))
    trial.assertEqual(kept.keys() ^ named, set(), "the package has what is installed")
    edited = ("share/man", DOCUMENTS + "README.md", DOCUMENTS + "changelog.gz")
    other = [
        name
        for name, (_, data) in wanted.items()
        if kept.get(name_in_package(name)) != data
        and not name_in_package(name).startswith(("usr/share/man/", *edited))
    ]
    trial.assertEqual(other, [], "the package has the bytes that are installed")
    try_texts(trial, texts(found), kept)
    try_members(trial, path, FIXED)


def try_members(trial: InstallTest, path: str, time: int) -> None:
    """What the Debian package has is root's and has this time, and anybody may read it."""
    whole = trial.run_words(["dpkg-deb", "--fsys-tarfile", path]).output
    with tarfile.open(fileobj=io.BytesIO(whole)) as archive:
        trial.assertEqual(owners_and_times(archive), {(0, 0, time)})
        modes = {one.mode for one in archive.getmembers() if not one.issym()}
    trial.assertEqual(modes, {0o755, 0o644}, "the permissions in the package")


def try_texts(trial: InstallTest, found: dict[str, str], kept: dict[str, bytes]) -> None:
    """No text of the Debian package names /usr/local; pages and logs have the version; documents
    link to what it has."""
    links = []
    for name, text in found.items():
        # The administrator's own libraries and certificates are there, wherever the commands are.
        named = set(re.findall(r"/usr/local/(?:bin/a|lib/|share/)[\w./-]*", text))
        if name.endswith(("/severity.conf", "/certificates.py")):
            named -= {"/usr/local/lib/", "/usr/local/share/ca-certificates/"}
        trial.assertEqual(named, set(), name)
        if "/examples/" not in name:
            trial.assertFalse(text.startswith("#!/usr/bin/env python3"), name)
        if name.startswith(DOCUMENTS) and name.endswith(".md"):
            links += re.findall(r"\]\(([^)#:]+)(?:#[^)]*)?\)", text)
    trial.assertGreater(len(links), 5)
    trial.assertEqual([link for link in links if DOCUMENTS + link not in kept], [])
    page = gzip.decompress(kept["usr/share/man/man8/aide-compare-program.8.gz"]).decode()
    trial.assertIn(".Os aide-compare " + trial.version, page)
    trial.assertNotIn("/usr/local", page)
    log = gzip.decompress(kept[DOCUMENTS + "changelog.Debian.gz"]).decode()
    trial.assertTrue(log.startswith(f"aide-compare ({trial.version}-1) "), log)


@slow
class PackagesTest(InstallTest):
    def setUp(self) -> None:
        super().setUp()
        self.more = {key: os.environ[key] for key in os.environ if key != "SOURCE_DATE_EPOCH"}
        self.more.update(PROGRAM=self.program, DEB_BUILD_OPTIONS="nocheck")

    def build(self, folder: str, *words: str, **more: Any) -> None:
        """Runs a command at the top of a copy of the sources in a new folder."""
        source = self.path(folder, "aide-compare")
        shutil.copytree(self.source, source)
        done = self.run_words([*words], **{"cwd": source, "env": self.more, **more})
        self.assertEqual(done.status, 0, done)

    def elsewhere(self, folder: str) -> dict[str, Any]:
        """Another place, umask, language, time zone and user."""
        place = self.path(folder)
        os.makedirs(place)
        os.chmod(place, 0o777)
        odd = {"TMPDIR": place, "HOME": place, "LC_ALL": "C.UTF-8", "TZ": "Asia/Tokyo"}
        return {"env": {**self.more, **odd}}

    def built_twice(self, name: str, *words: str) -> str:
        """The path of a package, of which a second build elsewhere gives the same bytes."""
        self.build("one", *words)
        more = self.elsewhere("another")
        shutil.copytree(self.source, self.path("another", "aide-compare"))
        self.run_words(["chmod", "-R", "a+w", self.path("another")])
        narrow = ["sh", "-c", 'umask 077; exec "$@"', "sh", *words]
        done = self.run_words(narrow, cwd=self.path("another/aide-compare"), **more, **rights())
        self.assertEqual(done.status, 0, done)
        one, another = self.path("one", name), self.path("another", name)
        self.assertTrue(self.read(one) == self.read(another), "two builds give the same bytes")
        return one

    def test_tarball(self) -> None:
        self.needs("make")
        name = f"aide-compare-{self.version}-x86_64-linux.tar.gz"
        self.more["SOURCE_DATE_EPOCH"] = str(FIXED)
        path = self.built_twice(f"aide-compare/out/{name}", "make", "tarball")
        try_tarball(self, path)
        self.more["SOURCE_DATE_EPOCH"] = str(LATE)
        self.build("dated", "make", "tarball")
        files_of(self, self.read(f"dated/aide-compare/out/{name}"), LATE)

    def test_debian(self) -> None:
        self.needs("make", "dpkg-buildpackage", "dh", "dh_python3")
        name = f"aide-compare_{self.version}-1_amd64.deb"
        path = self.built_twice(name, "dpkg-buildpackage", "-b", "-us", "-uc", "-d")
        try_debian(self, path)
        debian.try_texts(self, path + ".tree")
        debian.try_stop(self, path + ".tree")
        debian.try_life(self, path)

    def test_rpm(self) -> None:
        self.needs("make", "rpmbuild")
        words = ["-bb", "--build-in-place", "--define", f"_topdir {self.path('rpmbuild')}"]
        words += ["--define", f"_dbpath {self.path('rpmdb')}"]  # Debian's rpm makes one at home.
        self.build("of-rpm", "rpmbuild", *words, "packaging/rpm/aide-compare.spec")
        name = f"aide-compare-{self.version}-1.x86_64.rpm"
        rpm.try_life(self, self.path("rpmbuild/RPMS/x86_64", name))

    def test_unproved(self) -> None:
        """What is not proved is not packed."""
        self.needs("make")
        program = self.copied_programs(self.program, "unproved programs", "aide-unproved")
        for words in (["install", "DESTDIR=" + self.path("packed")], ["tarball"]):
            done = self.run_words(["make", "-C", self.source, f"PROGRAM={program}", *words])
            self.assertEqual((done.status, "is not proved" in done.error_text), (2, True), done)
        self.assertFalse(os.path.exists(self.path("packed")), "nothing is packed")
