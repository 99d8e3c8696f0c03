"""Tries what both built programs make of each attribute of the table in oracle/attributes.py,
beside the definitions: in the lines of JSON, and in the details and the letters of a report."""
from __future__ import annotations

import base64

from tests.oracle.attributes import ATTRIBUTES, Attribute
from tests.program.real_files.folder import EMPTY, FolderTest, database

DETAILS = b"report_level=added_removed_entries\nreport_base16=yes\n"
# Two fields of each form that is no digest.
FIELDS = {
    "type": (b"100644", b"120644"),
    "perm": (b"100644", b"100600"),
    "number": (b"7", b"08"),
    "time": (b"7", b"MTA="),
    "link": (b"0-", b"x"),
    "opaque": (b"POSIX,0", b"0-"),
}
ALL_BITS = sum(1 << each.bit for each in ATTRIBUTES if each.bit)


def fields_of(attribute: Attribute) -> tuple[bytes, bytes]:
    """Two fields of an attribute. Digests are as short and as long as they may be."""
    if isinstance(attribute.form, str):
        return FIELDS[attribute.form]
    least, most = attribute.form
    return base64.b64encode(bytes(least)), base64.b64encode(b"\xa5" * most)


def with_all(**more: bytes) -> bytes:
    """A database of one entry with all attributes, and these other fields."""
    fields = {each.column: fields_of(each)[0] for each in ATTRIBUTES}
    fields.update({"name": b"/c", "attr": b"%d" % ALL_BITS, **more})
    columns = " ".join(fields).encode()
    return b"@@begin_db\n@@db_spec %s\n%s\n@@end_db\n" % (columns, b" ".join(fields.values()))


class AttributesTest(FolderTest):
    def compared(
        self, label: str, old: bytes, new: bytes, status: int, options: bytes = b""
    ) -> None:
        self.folder.pair(old, new, DETAILS + options)
        self.ends(label, self.folder.words(), status)

    def test_all(self) -> None:
        self.compared("all attributes, added", EMPTY, with_all(), 1)
        self.compared("all attributes, removed", with_all(), EMPTY, 2)
        forced = b"report_force_attrs=R+H+X\n"
        self.compared("all attributes, forced", with_all(), with_all(uid=b"9"), 4, forced)

    def test_each(self) -> None:
        """One attribute that alone differs, is ignored, or is lost with its bit."""
        for each in ATTRIBUTES:
            other = with_all(**{each.column: fields_of(each)[1]})
            self.compared(each.name, with_all(), other, 4)
            ignored = b"report_ignore_changed_attrs=%s\n" % each.name.encode()
            self.compared(f"{each.name}, ignored", with_all(), other, 0, ignored)
            if each.bit:
                lost = with_all(attr=b"%d" % (ALL_BITS - (1 << each.bit)))
                self.compared(f"{each.name}, without its bit", with_all(), lost, 4)

    def test_lengths(self) -> None:
        """A digest that is a byte shorter or longer than those of its column is refused."""
        for each in ATTRIBUTES:
            if isinstance(each.form, str):
                continue
            for length in filter(None, (each.form[0] - 1, each.form[1] + 1)):
                text = database(each.column.encode(), base64.b64encode(bytes(length)))
                self.compared(f"{each.name} of {length} bytes", EMPTY, text, 24)
