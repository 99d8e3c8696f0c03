"""Databases that are refused."""

BEGUN = b"@@begin_db\n@@db_spec name size\n"
UNORDERED = BEGUN + b"/a 1\n/a-b 1\n/a/b 1\n@@end_db\n"
UNENDED = BEGUN + b"/a 1\n"
SOUND = UNENDED + b"@@end_db\n"

# What is said of a database.
DATABASES = [
    ("1: no @@begin_db", b""),
    ("1: no @@begin_db", b"@@db_spec name size\n@@end_db\n"),
    ("1: no @@begin_db", b"\x1f\x8b\x08\x00\n"),
    ("4: no @@begin_db", b"# one\n\n# two\n"),
    ("2: unexpected directive", b"@@begin_db\n@@begin_db\n"),
    ("3: unexpected directive", BEGUN + b"@@db_spec name\n"),
    ("3: unexpected directive", BEGUN + b"@@foo\n"),
    ("2: no @@db_spec", b"@@begin_db\n@@end_db\n"),
    ("2: no @@db_spec", b"@@begin_db\n/a 1\n"),
    ("2: bad @@db_spec", b"@@begin_db\n@@db_spec\n@@end_db\n"),
    ("2: bad @@db_spec", b"@@begin_db\n@@db_spec size\n@@end_db\n"),
    ("2: bad @@db_spec", b"@@begin_db\n@@db_spec name name\n@@end_db\n"),
    ("2: bad @@db_spec", b"@@begin_db\n@@db_spec name" + b" x" * 64 + b"\n@@end_db\n"),
    ("3: wrong number of fields", BEGUN + b"/a\n"),
    ("3: wrong number of fields", BEGUN + b"/a 1 1\n"),
    ("3: bad name", BEGUN + b"a 1\n"),
    ("3: bad time in column 3", b"@@begin_db\n@@db_spec name sha256 mtime\n/a 0 x!\n@@end_db\n"),
    ("4: entry out of path order", BEGUN + b"/%61 1\n/a 1\n@@end_db\n"),
    ("4: entry out of path order", BEGUN + b"/a 1\n/a x\n"),
    ("5: entry out of path order", UNORDERED),
    ("4: no @@end_db", UNENDED),
]
