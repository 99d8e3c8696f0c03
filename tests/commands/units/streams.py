"""Streams of lines as aide_lines writes them, made of a few values of changes."""
from __future__ import annotations

from typing import Any

from aide_compare.base.files import in_memory
from aide_compare.base.paths import key_of_path
from aide_compare.base.words import SIDES, TRUSTED_SIDES
from aide_compare.lines.change import Fields
from aide_compare.lines.reader import ENCODE

UNCHANGED = "f................."
MTIME = 1795600000


def fields_of(path: str, kind: str = "added", owner: int = 0, **more: Any) -> Fields:
    """The object of the line of a plain file; `old` and `new` are further values of its sides."""
    side = {"Type": "File", "Perm": "0644", "UID": owner, "GID": owner, "Mtime": MTIME}
    sides = {"old": {**side, **more.pop("old", {})}, "new": {**side, **more.pop("new", {})}}
    if kind != "changed":
        del sides["old" if kind == "added" else "new"]
    head = {"kind": kind, "path": path, "summary": UNCHANGED, **more}
    return {**head, "type": head.pop("type", "File"), **sides}


def line_of(fields: Fields) -> bytes:
    return ENCODE(fields).encode() + b"\n"


def stream_of(*changes: Fields) -> int:
    """The descriptor of a whole stream of changes, which come in any order here."""
    ordered = sorted(changes, key=lambda each: key_of_path(each["path"].encode()))
    kinds = [each["kind"] for each in changes]
    proofs = [each.get("same_as") for each in changes]
    accounts = {"same_as_old": proofs.count("old"), "same_as_trusted": proofs.count("trusted")}
    accounts["left_out"] = sum("left_out" in each for each in changes)
    counts = {kind: kinds.count(kind) for kind in ("added", "removed", "changed")}
    status = sum(bit for bit, count in zip((1, 2, 4), counts.values()) if count)
    side = {"sha256": "00" * 32, "skipped": []}
    end: Fields = {"end": True, "status": status, "total": len(changes), **counts, **accounts}
    end["others"] = len(changes) - sum(accounts.values())
    end.update(dict.fromkeys((*SIDES, *TRUSTED_SIDES), side))
    first = {"format": 4, "old": "o", "new": "n", **dict.fromkeys(TRUSTED_SIDES, "")}
    return in_memory(b"".join(map(line_of, [first, *ordered, end])))
