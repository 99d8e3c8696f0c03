"""Values of attributes as people read them: as real tools print them, and of hostile sizes."""
from __future__ import annotations

import time

from tests.commands.units.calls import ModuleTest

from aide_compare.lines.change import Value
from aide_compare.lines.readable import decoded

# What AIDE 0.18.3 kept of files on ext4 (Debian 12, 2026-11-25), and what these printed of the same
# files: getfacl 2.3.1, getfattr 2.5.1, lsattr of e2fsprogs 1.47.0, ls -Z's label as it was set.
TABLE: list[tuple[str, Value, str | None]] = [
    (
        "ACL",
        b"POSIX,dXNlcjo6cnctCmdyb3VwOjpyLS0Kb3RoZXI6OnItLQo=,0",
        "user::rw-, group::r--, other::r--",
    ),
    (
        "ACL",
        b"POSIX,dXNlcjo6cnctCnVzZXI6NDI0Mjpyd3gJI2VmZmVjdGl2ZTpyLS0KZ3JvdXA6OnItLQptYXNrOjpyLS0K"
        b"b3RoZXI6OnItLQo=,0",
        "user::rw-, user:4242:rwx #effective:r--, group::r--, mask::r--, other::r--",
    ),
    (
        "ACL",
        b"POSIX,dXNlcjo6cnd4Cmdyb3VwOjpyLXgKb3RoZXI6OnIteAo=,dXNlcjo6cnd4CnVzZXI6NDM0Mzpyd3gJI2Vm"
        b"ZmVjdGl2ZTpyLS0KZ3JvdXA6OnIteAkjZWZmZWN0aXZlOnItLQptYXNrOjpyLS0Kb3RoZXI6OnIteAo=",
        "user::rwx, group::r-x, other::r-x, default:user::rwx, default:user:4343:rwx #effective:r--"
        ", default:group::r-x #effective:r--, default:mask::r--, default:other::r-x",
    ),
    (
        "XAttrs",
        b"3,user.a%20b,eCB5,user.c%2Cd,cQ==,user.%2541,0",
        'user.a\\040b: "x y"; user.c,d: "q"; user.%41: ""',
    ),
    (
        "XAttrs",
        b"5,user.empty,0,user.nl,YQpi,user.nul,YWJjAA==,trusted.t,dHQ=,security.selinux,"
        b"c3lzdGVtX3U6b2JqZWN0X3I6ZXRjX3Q6czA=",
        'user.empty: ""; user.nl: "a\\012b"; user.nul: "abc\\000"; trusted.t: "tt"; '
        "security.selinux: system_u:object_r:etc_t:s0",
    ),
    ("SELinux", b"c3lzdGVtX3U6b2JqZWN0X3I6ZXRjX3Q6czA=", "system_u:object_r:etc_t:s0"),
    ("SELinux", b"c3lzdGVtX3U6b2JqZWN0X3I6ZXRjX3Q6czAA", "system_u:object_r:etc_t:s0"),
    ("E2FSAttrs", b"524288", "--------------e-------"),
    ("E2FSAttrs", b"524304", "----i---------e-------"),
    ("E2FSAttrs", b"524448", "-----a-A------e-------"),
    ("E2FSAttrs", b"524352", "------d-------e-------"),
    ("E2FSAttrs", b"0", "----------------------"),
    ("E2FSAttrs", b"786432", "--------------e------- +0x40000"),
    ("Caps", b"Y2FwX25ldF9yYXc9ZXA=", "cap_net_raw=ep"),
    ("Perm", "4755", "-rwsr-xr-x"),
    ("Perm", "6644", "-rwSr-Sr--"),
    ("Perm", "1777", "-rwxrwxrwt"),
    # What has no text: it does not decode, or there is nothing in it.
    ("ACL", b"0", None),
    ("ACL", b"", None),
    ("ACL", b"POSIX,0,0", None),
    ("ACL", b"POSIX,dXNlcjo6cnct", None),
    ("ACL", b"POSIX,dXNlcjo6cn,0", None),
    ("ACL", b"POSIX,eA==,0", None),
    ("ACL", b"SUN,dXNlcjo6cnctCg==,0", None),
    ("ACL", b"POSIX,dXNlcjphIGI6cnctCg==,0", None),
    ("XAttrs", b"0", None),
    ("XAttrs", b"2,user.a,YQ==", None),
    ("XAttrs", b"1,user.a,YQ", None),
    ("XAttrs", b"x", None),
    ("XAttrs", b"1,,YQ==", None),
    ("E2FSAttrs", b"-1", None),
    ("E2FSAttrs", b"0x10", None),
    ("E2FSAttrs", b"9" * 21, None),
    ("Caps", b"0", None),
    ("Caps", b"PWVwGw==", None),
    ("SELinux", b"0", None),
    ("Size", 5, None),
    ("SHA256", "AAAA", None),
    ("UID", 0, None),
    # What could be taken for something else is escaped.
    ("XAttrs", b"1,user.a,YSI7IHVzZXIuYjogIng=", 'user.a: "a\\042; user.b: \\042x"'),
    (
        "XAttrs",
        b"1,user.a:%20%22x%22;%20user.b,YQ==",
        'user.a:\\040\\042x\\042\\073\\040user.b: "a"',
    ),
    (
        "XAttrs",
        b"1,security.selinux,eDsgdXNlci5iOiAieCI=",
        'security.selinux: "x; user.b: \\042x\\042"',
    ),
    ("XAttrs", b"1,user.a,G1sybQ==", "user.a: 0sG1sybQ=="),
    ("XAttrs", b"1,security.capability,AQAAAgAg", "security.capability: 0sAQAAAgAg"),
    ("XAttrs", b"1,user.a,4oCu", 'user.a: "\\342\\200\\256"'),
    ("SELinux", b"4oCuG1sybQ==", "\\342\\200\\256\\033[2m"),
    ("ACL", b"POSIX,dXNlcjr/OnJ3LQo=,0", "user:\\377:rw-"),
]
# Values that would take long or be large if something were not bounded, and the most characters
# that a text has.
LONG = [
    ("XAttrs", b"100000" + b",a,0" * 100000),
    ("XAttrs", b"1,user.a," + b"YWFh" * 250000),
    ("SELinux", b"/////w==" * 100000),
    ("ACL", b"POSIX," + b"dXNlcjo6cnctCg==" * 60000 + b",0"),
    ("Caps", b"PT09" * 250000),
    ("XAttrs", b"1," + b"%41" * 300000 + b",0"),
    ("E2FSAttrs", b"1" * 1000000),
]
# Far more seconds of processor time than a value takes whose work grows with its length.
MOST_CHARACTERS, MOST_SECONDS = 17000, 30


class ReadableTest(ModuleTest):
    def test_table(self) -> None:
        for label, value, text in TABLE:
            self.gives(text, decoded, label, value, "File")

    def test_long(self) -> None:
        for label, value in LONG:
            began = time.process_time()
            text = decoded(label, value, "File") or ""
            with self.subTest(label=label, length=len(value)):
                self.assertLess(time.process_time() - began, MOST_SECONDS)
                self.assertLessEqual(len(text), MOST_CHARACTERS)
                self.assertTrue(text.isprintable(), text[:100])
