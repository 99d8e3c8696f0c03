"""Lists, changes, and the line of a list that leaves a change out, or 0."""
from __future__ import annotations

PLAIN = b"/a\n/a/*\n/a/**"
PROGRAMS = b"# comment\n\n /var/log/** \r\nprograms(made anew)\t /usr/**"
WILD = b"/**/x\n/**/.*/**\n/*b*c"
CLASSES = b"/[a-c]x\n/[!a-c]x\n/[]]\n/\\*\n/?\xff"
DOTS = b"/[.]a\n/\\.a\n/?a\n/.a\n/.?"
# A list, the path of a file that is added, and whether it is a program.
PATHS = [
    (PLAIN, b"/a", False, 1),
    (PLAIN, b"/a/b", False, 2),
    (PLAIN, b"/a/b/c", False, 3),
    (PLAIN, b"/a/b", True, 0),
    (PLAIN, b"/a/.b", False, 0),
    (PLAIN, b"/a/b/.c", False, 0),
    (PLAIN, b"/a/", False, 2),
    (PROGRAMS, b"/var/log", False, 0),
    (PROGRAMS, b"/var/log/x", False, 3),
    (PROGRAMS, b"/var/log/x", True, 0),
    (PROGRAMS, b"/usr/bin/a", True, 4),
    (PROGRAMS, b"/usr/bin/.a", True, 0),
    (WILD, b"/x", False, 1),
    (WILD, b"/a/b/x", False, 1),
    (WILD, b"/a/.a/x", False, 2),
    (WILD, b"/.a/b", False, 2),
    (WILD, b"/.a", False, 0),
    (WILD, b"/bbc", False, 3),
    (WILD, b"/bcb", False, 0),
    (CLASSES, b"/bx", False, 1),
    (CLASSES, b"/dx", False, 2),
    (CLASSES, b"/]", False, 3),
    (CLASSES, b"/*", False, 4),
    (CLASSES, b"/z\xff", False, 5),
    (CLASSES, b"/.x", False, 0),
    (DOTS, b"/.a", False, 4),
    (DOTS, b"/.b", False, 5),
    (DOTS, b"/ba", False, 3),
    (DOTS, b"/..", False, 5),
]
# A list that is refused, the line, and what is said of it.
REFUSED = [
    (b"a", 1, b"a path begins with /"),
    (b"/a\n/a**", 2, b"** is a component of its own"),
    (b"/a\\", 1, b"a backslash is the last byte of a component"),
    (b"\n/[a", 2, b"a class has no end"),
    (b"/[!]", 1, b"a class has no end"),
    (b"/[b-a]", 1, b"a range ends before it begins"),
    (b"programs() /a", 1, b"no reason for programs"),
    (b"programs(x)/a", 1, b"no reason for programs"),
    (b"programs(a(b) /a", 1, b"no reason for programs"),
]

ALL = b"# all\n/**\nprograms(made anew) /**\n/**"
LATER = b"/b\n/?\n/a"
SETTINGS = b"/etc/**\n/etc/*"
NONE = b""
# Below the columns name, perm, uid, gid, acl and capabilities.
FILE = b"/a 100644 0 0 0 0"
OTHER = b"/a 100600 7 7 0 0"
PROGRAM = b"/a 100700 0 0 0 0"
SET_USER = b"/a 104644 0 0 0 0"
SET_GROUP = b"/a 102644 0 0 0 0"
CAPABLE = b"/a 100644 0 0 0 YQ=="
LINK = b"/a 120777 0 0 0 YQ=="
DEVICE = b"/a 20666 0 0 0 0"
SHUT_DEVICE = b"/a 60000 0 0 0 0"
DEVICE_OF_A_USER = b"/a 60000 7 0 0 0"
UNTYPED = b"/a 644 0 0 0 0"
UNKNOWN = b"/a 30644 0 0 0 0"
DIRECTORY = b"/a 42755 0 0 0 0"
OF_A_USER = b"/a 42755 7 0 0 0"
OPEN = b"/a 40775 0 7 0 0"
OPEN_TO_MORE = b"/a 40777 0 7 0 0"
OPEN_BY_A_LIST = b"/a 40775 0 7 YQ== 0"
SET_USER_DIRECTORY = b"/a 44755 0 0 0 0"
SETTING = b"/etc/aide-compare 40755 0 0 0 0"
IN_SETTINGS = b"/etc/aide%2Dcompare/a 100644 0 0 0 0"
BESIDE_SETTINGS = b"/etc/aide%2Dcompared 100644 0 0 0 0"
# A list, and the only entries of two databases or none.
CHANGES = [
    (ALL, FILE, OTHER, 2),
    (ALL, FILE, NONE, 2),
    (ALL, NONE, FILE, 2),
    (ALL, FILE, PROGRAM, 3),
    (ALL, PROGRAM, FILE, 3),
    (ALL, NONE, PROGRAM, 3),
    (LATER, FILE, OTHER, 2),
    (LATER, FILE, PROGRAM, 0),
    (NONE, FILE, OTHER, 0),
    (ALL, SET_USER, FILE, 0),
    (ALL, FILE, SET_USER, 0),
    (ALL, SET_GROUP, NONE, 0),
    (ALL, FILE, CAPABLE, 0),
    (ALL, CAPABLE, FILE, 0),
    (ALL, FILE, LINK, 2),
    (ALL, NONE, DEVICE, 0),
    (ALL, DEVICE, SHUT_DEVICE, 0),
    (ALL, NONE, SHUT_DEVICE, 2),
    (ALL, NONE, DEVICE_OF_A_USER, 0),
    (ALL, FILE, UNTYPED, 0),
    (ALL, UNTYPED, NONE, 0),
    (ALL, FILE, UNKNOWN, 0),
    (ALL, NONE, DIRECTORY, 2),
    (ALL, NONE, OF_A_USER, 2),
    (ALL, DIRECTORY, OF_A_USER, 0),
    (ALL, FILE, OPEN, 0),
    (ALL, NONE, OPEN, 0),
    (ALL, OPEN, NONE, 2),
    (ALL, OPEN, OPEN_TO_MORE, 0),
    (ALL, OPEN, OPEN_BY_A_LIST, 0),
    (ALL, DIRECTORY, OPEN, 0),
    (ALL, SET_USER_DIRECTORY, NONE, 0),
    (SETTINGS, SETTING, NONE, 0),
    (SETTINGS, NONE, IN_SETTINGS, 0),
    (SETTINGS, NONE, BESIDE_SETTINGS, 1),
]
# Two entries or none, and whether each database has the column of capabilities.
MEASURED = [
    (PROGRAM, FILE, False, True, 0),
    (PROGRAM, FILE, True, False, 3),
    (NONE, PROGRAM, True, False, 0),
    (NONE, PROGRAM, False, True, 3),
    (FILE, OTHER, False, False, 2),
]

# Entries below the columns name, perm and capabilities, and below the first two of them.
WITH, ALONE = b"name perm capabilities", b"name perm"
RULED = b"programs(made anew) /a"
# A list, and the columns and the only entry of two databases.
COLUMNS = [
    (b"/**", (WITH, b"/a 100600 0"), (WITH, b"/a 100644 0"), 1),
    (b"/b\n/a\n/**", (WITH, b"/a 100600 0"), (WITH, b"/a 100644 0"), 2),
    (b"/**", (ALONE, b"/a 100600"), (WITH, b"/a 100644 0"), 1),
    (b"", (WITH, b"/a 100600 0"), (WITH, b"/a 100644 0"), 0),
    (RULED, (WITH, b"/a 100600 0"), (WITH, b"/a 100755 0"), 1),
    (RULED, (ALONE, b"/a 100600"), (WITH, b"/a 100755 0"), 1),
    (RULED, (ALONE, b"/a 100755"), (WITH, b"/a 100600 0"), 0),
    (RULED, (WITH, b"/a 100600 0"), (ALONE, b"/a 100755"), 0),
    (b"/**", (WITH, b"/a 100600 0"), (WITH, b"/a 100755 0"), 0),
    (RULED, (WITH, b"/a 100755 0"), (WITH, b"/a 104755 0"), 0),
]
