"""What a line alone says of a change: the rights of both sides, and which attributes differ."""
from __future__ import annotations

from typing import Any
from unittest import mock

from tests.commands.units.calls import ModuleTest
from tests.commands.units.streams import line_of

from aide_compare.base.paths import key_of_path
from aide_compare.changes.severity import Severity
from aide_compare.changes import weighing
from aide_compare.changes.weighing import MAX_LINE, Weight, Weights, directory_of, group_of_owner
from aide_compare.changes.weighing import is_content, weight_of, user_number
from aide_compare.lines.change import change_line, change_of
from aide_compare.lines.rights import differing, is_access_list, rights_of

SAME = "f...........H....."
PATH = "/srv/x"
OLD: dict[str, Any] = {
    **{"Type": "File", "Perm": "0755", "UID": 0, "GID": 5, "SHA256": "00", "ACL": "POSIX,0,0"},
    **{"XAttrs_hex": "ff", "SELinux": "c2U=", "Caps": "Y2Fw"},
}
NEW = {**OLD, "SHA256": "11"}
GREATER = {**NEW, "MD5": "00"}
PLAIN: dict[str, Any] = {"Type": "File", "Perm": "0644", "UID": 0, "GID": 0}
FOLDER = {**PLAIN, "Type": "Directory", "Perm": "2755"}


def fields_of(letters: str = SAME, **sides: dict[str, Any]) -> dict[str, Any]:
    """The object of a line of an entry that changed, or that only one side has."""
    kind = {1: "changed", 0: "added"}[int("old" in sides)]
    if "new" not in sides:
        kind = "removed"
    return {"kind": kind, "path": PATH, "summary": letters, **sides}


def weighed(weights: Weights, fields: dict[str, Any]) -> tuple[Weight, int]:
    """What is known of a line, which is what nothing is remembered for, and its rank."""
    known = weights.of(change_line(fields, line_of(fields)))
    assert known == weight_of(fields), fields
    return known, Severity().rank(b"/srv/x", known.results)


class WeighingTest(ModuleTest):
    def test_sides(self) -> None:
        """Each right is that of its side, and what a side does not have is not known."""
        old, new = rights_of(fields_of(old={"Perm": "4755", "UID": 7}, new=NEW))
        assert old is not None and new is not None
        self.assertEqual(old, ("", 0o4755, 7, None, None, None, None, None))
        self.assertEqual(new[:5], ("File", 0o755, 0, 5, b"POSIX,0,0"))
        self.assertEqual(new[5:], (b"\xff", b"c2U=", b"Y2Fw"))
        great = rights_of(fields_of(new={"UID": "18446744073709551615", "GID": -5}))[1]
        assert great is not None
        self.assertEqual((great.user, great.group), ((1 << 64) - 1, -5))
        self.assertIsNone(rights_of(fields_of(old=OLD))[1])

    def test_order_of_sides(self) -> None:
        """A right that came weighs more than one that went."""
        weights = Weights()
        set_id = {**NEW, "Perm": "4755"}
        letters = SAME[:4] + "p" + SAME[5:]
        came = weighed(weights, fields_of(letters, old=OLD, new=set_id))
        went = weighed(weights, fields_of(letters, old={**OLD, "Perm": "4755"}, new=NEW))
        self.assertLess(came[1], went[1])
        for side in (OLD, {**OLD, "Pad": "x" * MAX_LINE}):
            again = weighed(weights, fields_of(letters, old=side, new=set_id))
            self.assertEqual(again, came, "known, or too long to be kept")
        self.assertEqual((came[0].user, came[0].recordable), (0, ""))
        self.assertEqual(len(weights._known), 2)
        with mock.patch.object(weighing, "MAX_KNOWN", 3):
            for number in (1, 2, 3):
                weighed(weights, fields_of(new={**NEW, "UID": number}))
        self.assertEqual(len(weights._known), 3, "no more are kept than may be")

    def test_members(self) -> None:
        """Whatever is remembered of lines before, each is weighed as if it were the first one."""
        sides: list[dict[str, Any]] = [PLAIN, FOLDER, OLD, NEW, GREATER, {**NEW, "Linkcount": 2}]
        sides += [{**FOLDER, "Linkcount": 3}, {**PLAIN, "SHA256": "7"}, {**PLAIN, "MD5": "7"}]
        sides += [{**PLAIN, "ACL_hex": "ff"}]
        lines = [
            {**fields_of(letters, old=old, new=new), "type": word}
            for letters in (SAME, "!" + SAME[1:], "f.........n.H.....", SAME[:4] + "p" + SAME[5:])
            for old in sides
            for new in sides
            for word in ("File", "Directory")
        ]
        lines += [fields_of(new=side) for side in sides] + [fields_of(old=side) for side in sides]
        weights = Weights()
        for fields in lines:
            weighed(weights, fields)
        self.assertLess(len(weights._known), len(lines), "something is remembered")

    def test_types(self) -> None:
        """Two types with one word are not the same, whatever lines with this word came before."""
        socket = {**OLD, "Type": "Other"}
        pair = [fields_of(letters, old=socket, new=socket) for letters in (SAME, "!" + SAME[1:])]
        for first, then in (pair, pair[::-1]):
            weights = Weights()
            self.assertNotEqual(weighed(weights, first)[1], weighed(weights, then)[1])

    def test_differing(self) -> None:
        """A right whose letter says no difference is no value of the change; all others stay."""
        change = change_of(fields_of(old=OLD, new=NEW))
        self.assertEqual((change.old, change.new), ({"SHA256": "00"}, {"SHA256": "11"}))
        for place, letter, label in (
            *((0, "!", "Type"), (4, "p", "Perm"), (5, "u", "UID"), (6, "g", "GID")),
            *((13, "A", "ACL"), (14, "X", "XAttrs"), (15, "S", "SELinux"), (17, "C", "Caps")),
        ):
            letters = SAME[:place] + letter + SAME[place + 1 :]
            change = change_of(fields_of(letters, old=OLD, new=NEW))
            self.assertEqual(change.new.keys(), {"SHA256", label})
            self.assertEqual(change.old.keys(), {"SHA256", label})
        ignored = change_of(
            fields_of(SAME[:4] + ":" + SAME[5:], old=OLD, new={**NEW, "Perm": "0700"})
        )
        self.assertEqual(ignored.new, {"SHA256": "11"}, "a difference that is passed over")
        came = change_of(fields_of("f+++:" + 13 * "+", new=NEW))
        self.assertEqual(came.new.keys(), {*NEW} - {"XAttrs_hex"} | {"XAttrs"})
        one = change_of(fields_of(old={"SHA256": "00"}, new={**NEW, "Type": "File"}))
        self.assertIn("Type", one.new, "a type that only one side has")
        for odd in ({**fields_of(old=OLD, new=NEW), "summary": "f"}, {"kind": "changed"}):
            self.assertEqual(differing(odd), odd)

    def test_access_lists(self) -> None:
        """A list that says no more than a mode gives no right; one that is not understood may."""
        mode = b"POSIX,dXNlcjo6cnctCmdyb3VwOjpyLS0Kb3RoZXI6OnItLQo=,0"
        for field, gives in (
            (mode, False),
            (b"POSIX,0,0", False),
            (mode.replace(b",0", b",eA=="), True),
            (b"POSIX,dXNlcjo6cnctCnVzZXI6NDI0Mjpyd3gK,0", True),
            (b"POSIX,dXNlcjo6cn,0", True),
            (b"NFS4,0,0", True),
        ):
            self.gives(gives, is_access_list, field)

    def test_places(self) -> None:
        """Whose an entry is, as far as its number says it, and in which directory it is."""
        most = (1 << 63) - 1
        for owner, *known in ((0, 0, 0), (999, 1, 999), (1000, 2, 1000), (most + 1, 2, most)):
            self.expect(f"user {owner}", [group_of_owner(owner), user_number(owner)], known)
        self.expect("no user", (group_of_owner(None), user_number(None)), (0, -1))
        for path, above in ((b"/", b""), (b"/a", b"/"), (b"/a/b/c", b"/a/b")):
            self.gives(key_of_path(above), directory_of, key_of_path(path))

    def test_content(self) -> None:
        """Nothing but a content, or the target of a link, by the letters of what differs."""
        weights = Weights()
        for label, letters, word, recordable in (
            ("a content", "f.>b....mci.H.....", "File", "content"),
            ("a content of a file without flags", "f>>b....mci.H    .", "File", ""),
            ("where a link points", "ll>b....mci..     ", "Link", "target"),
            ("the digest of a link", "l..........  H    ", "Link", ""),
            ("a link that is a file now", "!.>b....mci.H.....", "File", ""),
            ("links", "f.>.....mci nH....", "File", ""),
            ("an access list", "f.>.....mci.HA....", "File", ""),
            ("flags", "f.>.....mci.H...E.", "File", ""),
            ("flags that are passed over", "f.>.....mci.H...:.", "File", ""),
        ):
            old, new = ({**side, "Type": word} for side in (OLD, NEW))
            changed = fields_of(letters, old=old, new=new)
            self.expect(label, is_content(changed, word == "Link"), bool(recordable))
            self.expect(f"recordable: {label}", weighed(weights, changed)[0].recordable, recordable)
        for more in (fields_of(old=OLD, new=GREATER), fields_of(old=GREATER, new=OLD)):
            self.expect("a digest on one side alone", is_content(more, False), False)
        self.expect("an entry that came", is_content(fields_of("f", new=NEW), False), True)
        unknown = {name: value for name, value in NEW.items() if name != "Perm"}
        old = {**unknown, "SHA256": "00"}
        for label, fields, is_it in (
            ("the same rights", fields_of(old=OLD, new=NEW), True),
            ("a mode that is not known", fields_of(old=old, new=unknown), False),
            ("another owner", fields_of(old=OLD, new={**NEW, "UID": 1}), False),
            ("a new file", fields_of(new=PLAIN), True),
            ("a new set-ID file", fields_of(new={**PLAIN, "Perm": "2755"}), False),
            ("a new directory with such a bit", fields_of(new=FOLDER), True),
            ("another user's new directory", fields_of(new={**FOLDER, "UID": 1}), False),
            ("a file that went", fields_of(old=PLAIN), False),
        ):
            self.expect(label, weighed(weights, fields)[0].recordable == "content", is_it)
