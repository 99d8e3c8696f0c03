"""Fields of an entry that are refused, by their columns. What others mean is in line_rows.py."""

# Fields that are refused, and why.
REFUSED = [
    (b"perm", b"40000000000", "bad number"),
    (b"perm", b"-1", "bad number"),
    (b"perm", b"100648", "bad number"),
    (b"size", b"18446744073709551616", "bad number"),
    (b"size", b"+1", "bad number"),
    (b"size", b"1x", "bad number"),
    (b"size", b"MTA=", "bad number"),
    (b"attr", b"-1", "bad number"),
    (b"mtime", b"x!", "bad time"),
    (b"mtime", b"-", "bad time"),
    (b"mtime", b"MTA", "bad time"),
    (b"mtime", b"MTA==", "bad time"),
    (b"mtime", b"MDAw" * 15 + b"MDE=", "bad time"),
    (b"mtime", b"MTB=", "bad time"),
    (b"sha256", b"AAAAAAAAAAAAAAAAAAAAAAAAAAAAAAAAAAAAAAAAAA==", "bad digest"),
    (b"crc32", b"1", "bad digest"),
    (b"crc32", b"AAB=", "bad digest"),
    (b"sha256", b"A" * 43 + b"=A", "bad digest"),
    (b"stribog512", b"47DEQpj8HBSa+/TImW+5JCeuQeRkm5NMpJWZG3hSuFU=", "bad digest"),
]
