"""What update-ca-certificates makes of signed certificates: links by their names and by the digests
of their subjects, and one file with all of them.

The configuration that it reads is expected too: that of the old database, as the package's script
changes it if all certificates are wanted. What this script finds on the host decides nothing.
"""
from __future__ import annotations

import os
import re
import tempfile
import time
from collections import Counter
from collections.abc import Collection, Mapping
from types import MappingProxyType
from typing import NamedTuple

from aide_compare.base.files import TEMPORARY, private_directory
from aide_compare.base.processes import PLAIN_ENVIRONMENT, OverTime, run
from aide_compare.changes.contents import NotMade

DIRECTORY = b"/usr/share/ca-certificates/"
LOCAL = b"/usr/local/share/ca-certificates/"
LINKS = b"/etc/ssl/certs/"
BUNDLE = LINKS + b"ca-certificates.crt"
CONFIGURATION = b"/etc/ca-certificates.conf"
ENDING = b".crt"
BLANKS = bytes.maketrans(b" (),", b"_==_")
HASHED = re.compile(rb"[0-9a-f]{8}\.\d+").fullmatch
SECONDS = 60
# It reads no configuration, and loads no module.
ENVIRONMENT = MappingProxyType(
    {
        **PLAIN_ENVIRONMENT,
        "OPENSSL_CONF": "/dev/null",
        "OPENSSL_ENGINES": "/nonexistent",
        "OPENSSL_MODULES": "/nonexistent",
    }
)


class Certificates(NamedTuple):
    """The targets of all links by their paths; the names of links that the order of a directory
    numbers; and the file with all certificates."""

    links: dict[bytes, bytes]
    numbered: set[bytes]
    bundle: bytes


def configured(former: bytes, names: Collection[bytes]) -> bytes:
    """The configuration after the former one, if the package has these certificates now."""
    lines = []
    known = set()
    for line in former.split(b"\n")[:-1]:
        name = line.removeprefix(b"!")
        known.add(name)
        if not line.startswith(b"#") and name not in names:
            line = b"!" + name
        lines.append(line)
    lines += sorted(name for name in names if name not in known)
    return b"".join(line + b"\n" for line in lines)


def chosen(
    configuration: bytes, signed: Mapping[bytes, bytes], local: Mapping[bytes, bytes]
) -> dict[bytes, bytes]:
    """The certificates that a configuration names, then those of the administrator, by their
    paths."""
    paths = [DIRECTORY + line for line in configuration.split(b"\n")]
    found = {path: signed[path] for path in paths if path in signed}
    return {**found, **dict(sorted(local.items()))}


def name_of(path: bytes) -> bytes:
    """The name of the link to a certificate."""
    return os.path.basename(path)[: -len(ENDING)].translate(BLANKS) + b".pem"


def hashed(texts: Mapping[bytes, bytes]) -> dict[bytes, bytes]:
    """The links that openssl makes by the digests of subjects, of certificates by their names."""
    with tempfile.TemporaryDirectory(prefix=TEMPORARY, dir=private_directory()) as place:
        directory = os.fsencode(place)
        for name, text in texts.items():
            with open(os.path.join(directory, name), "xb") as file:
                file.write(text)
        deadline = time.monotonic() + SECONDS
        try:
            status = run(
                [b"openssl", b"rehash", directory], {}, environment=ENVIRONMENT, deadline=deadline
            )
        except OverTime as fault:
            raise NotMade("openssl took too long") from fault
        names = [name for name in os.listdir(directory) if HASHED(name)]
        if status not in (0, 1):
            raise NotMade(f"openssl ended with {status}")
        return {name: os.readlink(os.path.join(directory, name)) for name in names}


def made_of(certificates: Mapping[bytes, bytes]) -> Certificates:
    """What is made of certificates, by their paths."""
    texts = {name_of(path): text for path, text in certificates.items()}
    found = hashed(texts)
    subjects = Counter(name.partition(b".")[0] for name in found)
    numbered = {LINKS + name for name in found if subjects[name.partition(b".")[0]] > 1}
    links = {LINKS + name_of(path): path for path in certificates}
    links.update({LINKS + name: target for name, target in found.items()})
    whole = (text if text.endswith(b"\n") else text + b"\n" for text in certificates.values())
    return Certificates(
        {path: target for path, target in links.items() if path not in numbered},
        numbered,
        b"".join(whole),
    )


def orphans(made: Certificates, former: Mapping[bytes, bytes]) -> set[bytes]:
    """The links of before that go, by their targets: those to a certificate of the package, and to
    the name of a link, if they are made no more."""
    return {
        path
        for path, target in former.items()
        if path not in made.links
        and path not in made.numbered
        and (target.startswith(DIRECTORY) or LINKS + target in former)
    }
