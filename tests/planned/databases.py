"""The databases of most tests of plans."""
from __future__ import annotations

from tests.program.real_files.folder import EMPTY, NEW, OLD

UNORDERED = b"@@begin_db\n@@db_spec name size\n/a 1\n/a-b 1\n/a/b 1\n@@end_db\n"
# A pair with every form of field.
FORMS_OLD = b"""@@begin_db
@@db_spec name attr perm lname size mtime md5 sha256 acl
/a%20b 294 40755 0 4096 MTA= 0 0 0
/a%20b/gone 294 100644 0 7 LTU= 1B2M2Y8AsgTpgAmY7PhCfg== 0 user::rw-
/a%20b/kept 294 104755 0 12 1700000000 1B2M2Y8AsgTpgAmY7PhCfg== \
47DEQpj8HBSa+/TImW+5JCeuQeRkm5NMpJWZG3hSuFU= user::rw-
/a%20b/link 294 120777 old%20target 3 10 0 0 0
/a%20b/text 294 100644 0 10 MTA= 1B2M2Y8AsgTpgAmY7PhCfg== 0 user::rw-
@@end_db
"""
FORMS_NEW = b"""@@begin_db
@@db_spec name attr perm lname size mtime md5 sha256 acl
/a%20b 294 40755 0 4096 10 0 0 0
/a%20b/kept 294 0104755 0 012 1700000000 1B2M2Y8AsgTpgAmY7PhCfg== \
47DEQpj8HBSa+/TImW+5JCeuQeRkm5NMpJWZG3hSuFU= user::rw-
/a%20b/link 294 120777 0- 3 10 0 0 0
/a%20b/text 294 100600 0 7 -5 q6urq6urq6urq6urq6urqw== \
47DEQpj8HBSa+/TImW+5JCeuQeRkm5NMpJWZG3hSuFU= 0
/a-new%0A%25 294 60600 0 18446744073709551615 0 0 0 ab\\c
@@end_db
"""
# Two entry lines of 30 bytes, and one of 30 and one of 31.
LINES_OF_30 = b"@@begin_db\n@@db_spec name size\n/%s 1\n/%s 1\n@@end_db\n" % (b"a" * 27, b"b" * 27)
LINES_OF_30_AND_31 = LINES_OF_30.replace(b"b 1", b"bb 1")


def large(rest: int, size: int) -> bytes:
    """The entries with numbers below 200,200, without those whose remainder by 1,001 is `rest`.
    Each entry is 30 bytes long. One in 1,001 has the given size."""
    entries = [
        b"/directory/of/files/%06d/f %d\n" % (number, size if number % 1001 == 7 else 0)
        for number in range(200_200)
        if number % 1001 != rest
    ]
    return b"@@begin_db\n@@db_spec name size\n" + b"".join(entries) + b"@@end_db\n"


__all__ = ["EMPTY", "NEW", "OLD"]
