"""What the scripts of packages make, as far as it can be made once more of what is signed."""
from __future__ import annotations

import io
import os
from collections.abc import Sequence

from aide_compare.base.ending import say
from aide_compare.base.escapes import shown
from aide_compare.base.files import read_file
from aide_compare.base.paths import unescaped
from aide_compare.changes import certificates
from aide_compare.changes.applied import SET_ASIDE, Upgrades, content_of, fits
from aide_compare.changes.compiled import files_of, wanted
from aide_compare.changes.contents import MAX_CONTENT, NotMade
from aide_compare.changes.night import Night


def own_text(path: bytes) -> bytes:
    """A regular file of this machine; none if there is none."""
    is_file = os.path.isfile(path) and not os.path.islink(path)
    if not is_file:
        return b""
    return read_file(path, MAX_CONTENT)


def is_in(night: Night, path: bytes, text: bytes) -> bool:
    """Whether a database has this file."""
    return fits(night.named.get(os.fsdecode(path), {}), content_of(io.BytesIO(text)))


def same_file(path: bytes, nights: Sequence[Night]) -> bytes:
    """A file of this machine that both databases have as it is."""
    text = own_text(path)
    if not all(is_in(night, path, text) for night in nights):
        raise NotMade(f"{shown(path)} is not as both databases have it")
    return text


def take_compiled(upgrades: Upgrades, old: Night, new: Night) -> None:
    """Takes what interpreters make of the sources of packages, of the compiled files that the new
    database has. An interpreter is that of a signed package, or that of both databases."""
    for version, found in wanted(new.compiled, upgrades.contents).items():
        try:
            files = {
                path: upgrades.contents.text(path) or same_file(path, (old, new))
                for path in files_of(version)
            }
            upgrades.take_compiled(files, found)
        except NotMade as reason:
            say(f"not applied, compiled Python 3.{version}: {reason}")


def local_certificates(old: Night, new: Night) -> dict[bytes, bytes]:
    """The certificates of the administrator that both databases have as they are."""
    paths = [os.fsencode(path) for path in new.named.keys() & old.named.keys()]
    texts = {path: own_text(path) for path in paths if path.startswith(certificates.LOCAL)}
    return {
        path: text
        for path, text in texts.items()
        if is_in(old, path, text) and is_in(new, path, text)
    }


def take_certificates(upgrades: Upgrades, old: Night, new: Night) -> None:
    """Takes the links of certificates that were taken, by the configuration of the old database."""
    paths = upgrades.contents.below(certificates.DIRECTORY)
    if not paths:
        return
    former_at = (certificates.CONFIGURATION, certificates.CONFIGURATION + SET_ASIDE)
    texts = map(own_text, former_at)
    former = [text for text in texts if is_in(old, certificates.CONFIGURATION, text)]
    try:
        if not former:
            raise NotMade("their configuration is not as the old database has it")
        names = {path[len(certificates.DIRECTORY) :] for path in paths}
        configuration = certificates.configured(former[0], names)
        signed = {path: upgrades.contents.text(path) or b"" for path in paths}
        local = local_certificates(old, new)
        made = certificates.made_of(certificates.chosen(configuration, signed, local))
        targets = {path: unescaped(target) for path, target in old.certificates.items()}
        upgrades.take_certificates(configuration, made, targets)
    except NotMade as reason:
        say(f"not applied, certificates: {reason}")
