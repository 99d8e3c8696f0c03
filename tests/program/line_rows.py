"""Fields of an entry and the members that the lines have for them, and whole answers, all written
by hand."""
from __future__ import annotations

import base64

ZEROS = {size: base64.b64encode(bytes(size)) for size in (1, 16, 20, 32, 64)}


def digest(column: bytes, name: str, size: int) -> tuple[bytes, bytes, str]:
    return (column, ZEROS[size], '"%s":"%s"' % (name, "00" * size))


# A column, a field, and the member of it at an added entry: nothing where the entry lacks the
# attribute.
MEMBERS = [
    (b"perm", b"100644", '"Type":"File","Perm":"0644"'),
    (b"perm", b"120777", '"Type":"Link","Perm":"0777"'),
    (b"perm", b"20600", '"Type":"Character device","Perm":"0600"'),
    (b"perm", b"60600", '"Type":"Block device","Perm":"0600"'),
    (b"perm", b"10600", '"Type":"FIFO","Perm":"0600"'),
    (b"perm", b"140755", '"Type":"Socket","Perm":"0755"'),
    (b"perm", b"110000", '"Type":"Other","Perm":"0000"'),
    (b"perm", b"37777777777", '"Type":"Other","Perm":"7777"'),
    (b"perm", b"00001104755", '"Type":"File","Perm":"4755"'),
    (b"perm", b"4755", '"Perm":"4755"'),
    (b"lname", b"0", '"Lname":null'),
    (b"lname", b"0-", '"Lname":""'),
    (b"lname", b"00", '"Lname":"0"'),
    (b"lname", b"00-", '"Lname":"0-"'),
    (b"lname", b"%30", '"Lname":"0"'),
    (b"lname", b"0-x", '"Lname":"0-x"'),
    (b"lname", b"00%41%zz%", '"Lname":"0A%zz%"'),
    (b"lname", b"../a%20%22%5c/", '"Lname":"../a \\"\\\\/"'),
    (b"lname", b"%c3%a9%ff", '"Lname_hex":"c3a9ff"'),
    (b"size", b"0", '"Size":0'),
    (b"size", b"-0", '"Size":0'),
    (b"size", b"-1", '"Size":-1'),
    (b"size", b"9007199254740991", '"Size":9007199254740991'),
    (b"size", b"9007199254740992", '"Size":"9007199254740992"'),
    (b"size", b"-9007199254740991", '"Size":-9007199254740991'),
    (b"size", b"-9007199254740992", '"Size":"-9007199254740992"'),
    (b"size", b"18446744073709551615", '"Size":"18446744073709551615"'),
    (b"size", b"-9223372036854775808", '"Size":"-9223372036854775808"'),
    (b"bcount", b"007", '"Bcount":7'),
    (b"uid", b"1000", '"UID":1000'),
    (b"gid", b"65534", '"GID":65534'),
    (b"inode", b"9007199254740993", '"Inode":"9007199254740993"'),
    (b"lcount", b"2", '"Linkcount":2'),
    (b"atime", b"MTA=", '"Atime":10'),
    (b"mtime", b"MDAw" * 10 + b"MDEw", '"Mtime":10'),
    (b"attr size", b"31 1", ""),
    (b"lname attr", b"x 13", ""),
    (b"mtime", b"-5", '"Mtime":-5'),
    (b"ctime", b"MDAxMA==", '"Ctime":10'),
    (b"sha256", b"0", ""),
    (b"crc32", b"q+8=", '"CRC32":"abef"'),
    digest(b"md5", "MD5", 16),
    digest(b"sha1", "SHA1", 20),
    digest(b"sha256", "SHA256", 32),
    digest(b"sha512", "SHA512", 64),
    digest(b"rmd160", "RMD160", 20),
    digest(b"tiger", "TIGER", 1),
    digest(b"crc32", "CRC32", 64),
    digest(b"crc32b", "CRC32B", 1),
    digest(b"haval", "HAVAL", 1),
    digest(b"gost", "GOST", 64),
    digest(b"whirlpool", "WHIRLPOOL", 64),
    digest(b"stribog256", "STRIBOG256", 32),
    digest(b"stribog512", "STRIBOG512", 64),
    digest(b"sha512_256", "SHA512/256", 32),
    digest(b"sha3_256", "SHA3-256", 32),
    digest(b"sha3_512", "SHA3-512", 64),
    (b"md5", b"1B2M2Y8AsgTpgAmY7PhCfg==", '"MD5":"d41d8cd98f00b204e9800998ecf8427e"'),
    (b"acl", b"0", ""),
    (b"acl", b"00", '"ACL":"00"'),
    (b"acl", b"POSIX,dXNlcg==,0", '"ACL":"POSIX,dXNlcg==,0"'),
    (b"acl", b'%41"\\', '"ACL":"%41\\"\\\\"'),
    (b"acl", b"\xc3", '"ACL_hex":"c3"'),
    (b"xattrs", b"\x01\x7f", '"XAttrs":"\\u0001\\u007f"'),
    (b"selinux", b"\xc2\x9b\xe2\x80\xae", '"SELinux":"\\u009b\\u202e"'),
    (
        b"e2fsattrs",
        b"\xe2\x80\xa7\xe2\x80\xa8\xe2\x81\xa5\xe2\x81\xa6",
        '"E2FSAttrs":"\u2027\\u2028\u2065\\u2066"',
    ),
    (b"capabilities", b"0-", '"Caps":"0-"'),
    (b"capabilities", b"\xed\xa0\x80", '"Caps_hex":"eda080"'),
]

OLD = b"@@begin_db\n@@db_spec name attr perm size foo\n/b 36 40755 4096 x\n/c 36 100644 10 x\n"
OLD += b"/d 36 100644 1 x\n@@end_db\n"
NEW = b"@@begin_db\n@@db_spec name attr perm size\n/a%ff%0a 36 100644 5\n/c 36 100600 10\n"
NEW += b"/d 36 100644 1\n@@end_db\n"

# What the last line has of each: the digests are those that sha256sum prints.
OLD_READ = (
    '{"sha256":"778a3c0ead5bd47d48806a4f3704e648a040fda5c18fd7e333ea1ba49e5263de","skipped":[5]}'
)
NEW_READ = (
    '{"sha256":"6d0a7163b4a20a5124a21c33ba7b01ba466b7f4962a56bc840fd6739df3ef395","skipped":[]}'
)

# The databases of a trusted pair that is not named, which have no entries, and the empty list.
NO_ENTRIES = (
    '{"sha256":"7e49efc8977a1b13cb6d300a65a1f91375b0b1b4fd5df78af91edade960474d4","skipped":[]}'
)
NO_PAIR = ',"trusted_old":' + NO_ENTRIES + ',"trusted_new":' + NO_ENTRIES
NO_LIST = '"list":{"sha256":"e3b0c44298fc1c149afbf4c8996fb92427ae41e4649b934ca495991b7852b855"}'
# The first line, and those of what was added and removed.
FIRST = '{"format":4,"old":"/old","new":"/new","trusted_old":"","trusted_new":""}\n'
COME_AND_GONE = (
    '{"kind":"added","path_hex":"2f61ff0a","summary":"f+++++++++++++++++","type":"File",'
    '"new":{"Type":"File","Size":5,"Perm":"0644"}}\n'
    '{"kind":"removed","path":"/b","summary":"d-----------------","type":"Directory",'
    '"old":{"Type":"Directory","Size":4096,"Perm":"0755"}}\n'
)


def last_line(new: str, numbers: str, others: int, status: int) -> str:
    """The last line, with the numbers of entries and of changes."""
    return (
        f'{{"end":true,"old":{OLD_READ},"new":{new}{NO_PAIR},"total":3,{numbers},"same_as_old":0,'
        f'"same_as_trusted":0,"left_out":0,"others":{others},{NO_LIST},"status":{status}}}\n'
    )


# The options of a configuration for these two databases, the output and the status.
WHOLE = [
    (
        b"report_force_attrs=s\n",
        FIRST
        + COME_AND_GONE
        + '{"kind":"changed","path":"/c","summary":"f = p             ","type":"File",'
        '"old":{"Size":10,"Perm":"0644"},"new":{"Size":10,"Perm":"0600"}}\n'
        + last_line(NEW_READ, '"added":1,"removed":1,"changed":1', 3, 7),
        7,
    ),
    (
        b"report_ignore_changed_attrs=p\nreport_quiet=yes\n",
        FIRST + COME_AND_GONE + last_line(NEW_READ, '"added":1,"removed":1,"changed":0', 2, 3),
        3,
    ),
    (
        b"database_new=file:/old\nreport_quiet=yes\n",
        FIRST.replace("/new", "/old")
        + last_line(OLD_READ, '"added":0,"removed":0,"changed":0', 0, 0),
        0,
    ),
]

ONES = {size: base64.b64encode(bytes([1]) * size) for size in (16, 32, 64)}
FILE, DIRECTORY, LINK, FIFO = b"100644", b"40755", b"120777", b"10600"
# The bits of the attributes that an entry has.
ALL = b"%d" % (2**64 - 1)
WITHOUT_OWNER = b"%d" % (2**64 - 1 - 2**3)
WITHOUT_OWN = b"%d" % (2**64 - 1 - 2**8 - 2**9)

# Columns, the old and the new fields of an entry that changed, and whether the old entry accounts
# for the change.
ACCOUNTS = [
    (
        b"perm mtime ctime atime inode bcount sha256",
        [FILE, b"1", b"2", b"3", b"4", b"5", ZEROS[32]],
        [FILE, b"6", b"7", b"8", b"9", b"8", ZEROS[32]],
        True,
    ),
    (b"perm size sha256", [FILE, b"5", ZEROS[32]], [FILE, b"6", ZEROS[32]], False),
    (b"perm lcount sha256", [FILE, b"1", ZEROS[32]], [FILE, b"2", ZEROS[32]], False),
    (b"perm uid sha256", [FILE, b"0", ZEROS[32]], [FILE, b"1", ZEROS[32]], False),
    (b"perm acl sha256", [FILE, b"0", ZEROS[32]], [FILE, b"POSIX,dXNlcg==,0", ZEROS[32]], False),
    (b"perm sha256", [FILE, ZEROS[32]], [b"104644", ZEROS[32]], False),
    (b"perm sha256", [FILE, ZEROS[32]], [FIFO, ZEROS[32]], False),
    (b"perm sha256", [FILE, ZEROS[32]], [FILE, ONES[32]], False),
    (b"perm sha256", [b"644", ZEROS[32]], [b"644", ONES[32]], False),
    # One of the two lacks an attribute: the owner, or time and inode, which are a machine's own.
    (
        b"attr perm uid sha256",
        [ALL, FILE, b"0", ZEROS[32]],
        [WITHOUT_OWNER, FILE, b"0", ZEROS[32]],
        False,
    ),
    (
        b"attr perm mtime inode sha256",
        [ALL, FILE, b"1", b"2", ZEROS[32]],
        [WITHOUT_OWN, FILE, b"1", b"2", ZEROS[32]],
        True,
    ),
    (b"perm mtime sha256", [b"644", b"1", ZEROS[32]], [b"644", b"2", ZEROS[32]], False),
    (b"perm mtime", [FILE, b"1"], [FILE, b"2"], False),
    (b"perm mtime md5", [FILE, b"1", ZEROS[16]], [FILE, b"2", ZEROS[16]], False),
    (b"perm mtime gost", [FILE, b"1", ZEROS[64]], [FILE, b"2", ZEROS[64]], False),
    (b"perm mtime sha512", [FILE, b"1", ZEROS[64]], [FILE, b"2", ZEROS[64]], True),
    (b"perm mtime whirlpool", [FILE, b"1", ZEROS[64]], [FILE, b"2", ZEROS[64]], True),
    (b"perm mtime stribog256", [FILE, b"1", ZEROS[32]], [FILE, b"2", ZEROS[32]], True),
    (b"perm mtime stribog512", [FILE, b"1", ZEROS[64]], [FILE, b"2", ZEROS[64]], True),
    (b"perm mtime sha512_256", [FILE, b"1", ZEROS[32]], [FILE, b"2", ZEROS[32]], True),
    (b"perm mtime sha3_256", [FILE, b"1", ZEROS[32]], [FILE, b"2", ZEROS[32]], True),
    (b"perm mtime sha3_512", [FILE, b"1", ZEROS[64]], [FILE, b"2", ZEROS[64]], True),
    (b"perm sha256 md5", [FILE, ZEROS[32], b"0"], [FILE, ZEROS[32], ZEROS[16]], True),
    (b"perm sha256 md5", [FILE, ZEROS[32], ZEROS[16]], [FILE, ZEROS[32], ONES[16]], False),
    (b"perm sha256 sha512", [FILE, ZEROS[32], b"0"], [FILE, b"0", ZEROS[64]], False),
    (b"perm size lcount mtime", [DIRECTORY, b"1", b"2", b"3"], [DIRECTORY, b"4", b"2", b"6"], True),
    # A directory has one link more, which no entry explains.
    (b"perm lcount", [DIRECTORY, b"5"], [DIRECTORY, b"6"], False),
    (b"perm gid", [DIRECTORY, b"0"], [DIRECTORY, b"1"], False),
    (b"perm", [DIRECTORY], [b"10755"], False),
    # A device that was made again: no database has its numbers.
    (b"perm inode ctime", [b"20600", b"1", b"1"], [b"20600", b"2", b"2"], False),
    (b"perm inode ctime", [b"60600", b"1", b"1"], [b"60600", b"2", b"2"], False),
    (b"perm lname mtime", [LINK, b"../a", b"1"], [LINK, b"../a", b"2"], True),
    (b"perm lname mtime", [LINK, b"../a", b"1"], [LINK, b"../b", b"1"], False),
    (b"perm lname mtime", [LINK, b"0", b"1"], [LINK, b"0", b"2"], False),
    (b"perm mtime", [LINK, b"1"], [LINK, b"2"], False),
    (b"perm mtime", [FIFO, b"1"], [FIFO, b"2"], True),
]

# Configurations, and what is said of them.
SETTINGS = [
    (
        b"",
        '{"format":3,"database_in":null,"database_new":null,"report_level":"changed_attributes",'
        '"report_grouped":true,"report_summarize_changes":true,"report_base16":false,'
        '"report_quiet":false,"report_ignore_added_attrs":[],"report_ignore_removed_attrs":[],'
        '"report_ignore_changed_attrs":[],"report_force_attrs":[]}\n',
    ),
    (
        b'database_in=file:/o%20"\ndatabase_new=file:/n\nreport_level=minimal\nreport_grouped=no\n'
        b"report_summarize_changes=no\nreport_base16=yes\nreport_quiet=yes\n"
        b"report_ignore_added_attrs=s+p\nreport_ignore_removed_attrs=L-acl-selinux-xattrs\n"
        b"report_ignore_changed_attrs=sha512_256\nreport_force_attrs=ftype\n",
        '{"format":3,"database_in":"/o%20\\"","database_new":"/n","report_level":"minimal",'
        '"report_grouped":false,"report_summarize_changes":false,"report_base16":true,'
        '"report_quiet":true,"report_ignore_added_attrs":["s","p"],'
        '"report_ignore_removed_attrs":["ftype","l","p","u","g","i","n","e2fsattrs","caps"],'
        '"report_ignore_changed_attrs":["sha512_256"],"report_force_attrs":["ftype"]}\n',
    ),
]
