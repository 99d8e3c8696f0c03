"""A host in two nights, made up: its files as AIDE sees them, and dpkg's records of now."""
from __future__ import annotations

import base64
import hashlib
import json
import os
import shutil
from typing import Any, Callable

from tests.commands.sandbox import CommandTest
from tests.lib.answer import Answer

DPKG = b"/var/lib/dpkg/"
COLUMNS = (
    *("name", "lname", "perm", "uid", "gid", "size", "ctime", "mtime", "inode", "bcount", "lcount"),
    *("md5", "attr", "acl", "sha256", "selinux", "xattrs", "e2fsattrs", "capabilities"),
)
FILE_BITS, DIRECTORY_BITS, LINK_BITS = 112744996797, 111671250877, 42949676991
ACL = b"user::rwx\ngroup::r-x\nother::r-x\n"
MORE_ACL = b"user::rwx\nuser:1000:rwx\ngroup::r-x\nmask::rwx\nother::r-x\n"
UNUSUAL = set(b"%:[]@~ ") | set(range(33)) | set(range(127, 256))


def base64_of(data: bytes) -> str:
    return base64.b64encode(data).decode()


def time_of(seconds: int) -> str:
    """A time as AIDE writes it in a database."""
    return base64_of(b"%d" % seconds)


def acl_of(text: bytes) -> str:
    return f"POSIX,{base64_of(text)},0"


def encoded(path: bytes) -> str:
    """A path as AIDE writes it in a database."""
    return "".join("%%%02X" % byte if byte in UNUSUAL else chr(byte) for byte in path)


def fields_of(path: bytes, mode: int, content: bytes, link: bytes) -> dict[str, Any]:
    """What AIDE says of a file of root's, by column."""
    bits = {8: FILE_BITS, 10: LINK_BITS}.get(mode >> 12, DIRECTORY_BITS)
    digests = {"md5": "0", "sha256": "0"}
    if mode >> 12 == 8:
        for name in digests:
            digests[name] = base64_of(hashlib.new(name, content).digest())
    return {
        "name": encoded(path),
        "lname": encoded(link) if link else "0",
        "perm": f"{mode:o}",
        "uid": 0,
        "gid": 0,
        "size": len(content),
        "ctime": time_of(1000),
        "mtime": time_of(1000),
        "inode": int(hashlib.md5(path).hexdigest()[:7], 16),
        "bcount": 8,
        "lcount": 1,
        "attr": bits,
        "acl": "0" if link else acl_of(ACL),
        "selinux": "0",
        "xattrs": "0",
        "e2fsattrs": "0" if link else "524288",
        "capabilities": "0",
        **digests,
    }


class Night:
    """One night: what AIDE says of each path."""

    def __init__(self) -> None:
        self.entries: dict[bytes, dict[str, Any]] = {}
        self.columns: tuple[str, ...] = COLUMNS

    def file(self, path: bytes, content: bytes = b"", mode: int = 0o100644, **more: Any) -> Night:
        self.entries[path] = {**fields_of(path, mode, content, b""), **more}
        return self

    def directory(self, path: bytes, mode: int = 0o40755, **more: Any) -> Night:
        self.entries[path] = {**fields_of(path, mode, b"", b""), **more}
        return self

    def link(self, path: bytes, target: bytes, **more: Any) -> Night:
        self.entries[path] = {**fields_of(path, 0o120777, b"", target), **more}
        return self

    def database(self) -> bytes:
        order = sorted(self.entries, key=lambda path: path.split(b"/"))
        lines = ["@@begin_db", "@@db_spec " + " ".join(self.columns)]
        for path in order:
            lines.append(" ".join(str(self.entries[path][column]) for column in self.columns))
        return "\n".join([*lines, "@@end_db", ""]).encode()


class Package:
    """A package of dpkg's records: its files and conffiles by path, and its other paths."""

    def __init__(
        self,
        name: str,
        version: str,
        files: dict[bytes, bytes],
        conffiles: dict[bytes, bytes] | None = None,
        listed: tuple[bytes, ...] = (),
        state: str = "install ok installed",
    ) -> None:
        self.name = name
        self.version = version
        self.files = files
        self.conffiles = conffiles or {}
        self.listed = listed
        self.state = state

    def status(self) -> bytes:
        text = f"Package: {self.name}\nStatus: {self.state}\nArchitecture: amd64\n"
        text += f"Version: {self.version}\n"
        lines = b""
        for path, content in self.conffiles.items():
            lines += b" %s %s\n" % (path, hashlib.md5(content).hexdigest().encode())
        return text.encode() + (b"Conffiles:\n" + lines if lines else b"")

    def paths(self) -> bytes:
        paths = {*self.files, *self.conffiles, *self.listed}
        above = {path[:end] for path in paths for end in range(2, len(path)) if path[end] == 47}
        return b"".join(path + b"\n" for path in sorted({b"/.", *paths, *above}))

    def sums(self) -> bytes:
        text = b""
        for path, content in self.files.items():
            text += b"%s  %s\n" % (hashlib.md5(content).hexdigest().encode(), path[1:])
        return text


class Host:
    """Two nights of a host, and dpkg's records when they are compared."""

    def __init__(self) -> None:
        self.old = Night()
        self.new = Night()
        self.packages: list[Package] = []
        for path in (b"/", b"/usr"):
            self.both(lambda night: night.directory(path))

    def both(self, work: Callable[[Night], object]) -> Host:
        work(self.old)
        work(self.new)
        return self

    def records(self) -> dict[str, bytes]:
        files = {"status": b"".join(package.status() + b"\n" for package in self.packages)}
        for package in self.packages:
            files[f"info/{package.name}.list"] = package.paths()
            files[f"info/{package.name}.md5sums"] = package.sums()
        return files

    def write(self, sandbox: CommandTest) -> None:
        """Writes both databases, and dpkg's records where the sandbox has them."""
        sandbox.write("host-old.db", self.old.database())
        sandbox.write("host-new.db", self.new.database())
        write_records(sandbox, self.records() if self.packages else {})

    def ask(self, sandbox: CommandTest, *words: str) -> tuple[Answer, list[dict[str, Any]]]:
        """The answer of aide-compare json for the two nights, and the objects of its lines."""
        self.write(sandbox)
        answer = sandbox.call("aide-compare json", *words, "host-old.db", "host-new.db")
        return answer, objects_of(answer)

    def brief(self, sandbox: CommandTest) -> str:
        """What people read first of the two nights."""
        self.write(sandbox)
        return str(sandbox.call("aide-compare", "host-old.db", "host-new.db").output.decode())


def write_records(sandbox: CommandTest, files: dict[str, bytes]) -> None:
    """dpkg's records of the machine, as the commands of the sandbox see it; none without files."""
    shutil.rmtree(sandbox.path("dpkg"), ignore_errors=True)
    for name, text in files.items():
        os.makedirs(os.path.dirname(sandbox.path(f"dpkg/{name}")), exist_ok=True)
        sandbox.write(f"dpkg/{name}", text)


def objects_of(answer: Answer) -> list[dict[str, Any]]:
    """The objects of the lines of an answer; none if it has others."""
    try:
        return [json.loads(line) for line in answer.output.splitlines()]
    except ValueError:
        return []


def path_of(fields: dict[str, Any]) -> bytes:
    if "path_hex" in fields:
        return bytes.fromhex(fields["path_hex"])
    path: str = fields["path"]
    return path.encode()


ALL_NAMES = ("standing", "severity", "package")


def standings_of(
    objects: list[dict[str, Any]], names: tuple[str, ...] = ALL_NAMES
) -> dict[bytes, str]:
    """What the lines say of each path, by these members, in words."""
    changes = [fields for fields in objects if "kind" in fields]
    words = {path_of(each): [each[name] for name in names if name in each] for each in changes}
    return {path: " ".join(found) for path, found in words.items()}
