"""aide-compare archive: the database to expect after upgrades to packages of a signed archive."""
from __future__ import annotations

import io
import os
from collections.abc import Container, Iterable, Sequence

from aide_compare.base.database import refuse_terminal
from aide_compare.base.ending import DeviceFault, Fault, Status, say, usage_fault, write_blocks
from aide_compare.base.escapes import shown
from aide_compare.base.files import blocks_of, in_memory, trusted_text
from aide_compare.base.options import MAX_SIZE, QUIET, USER, Request, Operand, field, option
from aide_compare.base.parser import Help, read, read_defaults
from aide_compare.base.paths import key_of_path
from aide_compare.base.processes import limit_memory, limit_time
from aide_compare.base.replacement import replace_by_copy
from aide_compare.base.rights import become_owner, give_up
from aide_compare.base.words import counted
from aide_compare.changes.applied import KEPT, Upgrades, content_of, fits, upgraded
from aide_compare.changes.night import APTS_LISTS, Entries, Night, changed
from aide_compare.changes.scripts import take_certificates, take_compiled
from aide_compare.changes.signed import Catalog, releases_of
from aide_compare.changes.usr import MERGED
from aide_compare.commands.defaults import machines_databases
from aide_compare.compare.soundness import refuse_unsound
from aide_compare.compare.unpack import Copy, copy_database

HELP = Help(
    name="aide-compare archive",
    usage="%(prog)s [OPTIONS] --from DIR ... [OLD NEW]",
    description="""\
Writes the database to expect now: OLD, with the files of every new or upgraded package as the
signed archive has them. A comparison takes OLD and this database as a trusted pair.""",
    epilog="""\
Status: 0 written; 18 a file is not signed, not there, expired, or not as it was signed, or this
took too long; 15, 22, 24, and what else 18 means: see aide-compare(1).""",
)
# Of Debian and of Ubuntu. The first one that is there counts.
KEYRINGS = (
    "/usr/share/keyrings/debian-archive-keyring.gpg",
    "/usr/share/keyrings/ubuntu-archive-keyring.gpg",
)
ARMOR = b"-----BEGIN PGP"  # As apt also takes it.
MAX_MEMORY = 512 << 20
MAX_SECONDS = 1800
ADVICE = (
    f"it has to name MIRROR/dists/SUITE, or a directory called lists with what the old database has"
    f" in {APTS_LISTS}"
)


class ArchiveRequest(Request):
    """What the options ask for."""

    is_quiet: bool = field(QUIET, help="say only what is new or not applied")
    databases: Sequence[str] = field(
        Operand("OLD NEW", "two databases of one host (those of the defaults)", "*", ())
    )
    # With the signed indexes and packages.
    directories: Sequence[str] = option(
        "--from",
        "a suite of a mirror (MIRROR/dists/SUITE), apt's lists, or a directory of packages",
        "DIR",
        is_repeated=True,
    )
    keyrings: Sequence[str] = option(
        "--keyring",
        "the keys that must have signed the indexes (those of Debian or Ubuntu)",
        "FILE",
        is_repeated=True,
    )
    output: str | None = option(
        "--output",
        "write to FILE, which is a copy of OLD if nothing can be applied, and OLD to FILE.old",
        "FILE",
    )
    max_size: int = field(MAX_SIZE)
    user: str | None = field(USER)


def keys_of(path: str, file: str, nights: Sequence[Night]) -> bytes:
    """The keys of a keyring. If a database has its path, or that of the file to which this leads,
    both have the file as it is."""
    text = trusted_text(file, "the keyring")
    if text.startswith(ARMOR):
        why = f"the keyring {shown(path)} is a text, which gpgv does not read"
        raise DeviceFault(why, "gpg --dearmor makes a keyring of it")
    content = content_of(io.BytesIO(text))
    found = [(night.named.get(path), night.named.get(file)) for night in nights]
    if any(map(any, found)) and not all(entry and fits(entry, content) for _, entry in found):
        raise DeviceFault(f"the keyring {shown(path)} is not as both databases have it")
    return text


def say_each(words: str, names: Iterable[str]) -> None:
    for name in sorted(names):
        say(f"{words}: {shown(name)}")


def own_of(file: str) -> tuple[str, str]:
    """Whose file this is by apt's name for it: dpkg's name with the architecture; and its
    version."""
    name, _, rest = file.removesuffix(".deb").partition("_")
    version, _, architecture = rest.rpartition("_")
    return f"{name}:{architecture}", version.replace("%3a", ":")


def take_files(upgrades: Upgrades, catalog: Catalog, gone: Iterable[str]) -> None:
    """Takes the files of packages that apt keeps, and that a newer one has replaced."""
    for signed in catalog.signed_files.values():
        upgrades.keep(signed)
    for file in gone:
        if catalog.supersedes(*own_of(file)):
            upgrades.gone.add(key_of_path(os.fsencode(KEPT + file)))


def take_packages(
    upgrades: Upgrades, catalog: Catalog, sums: Entries, came: Container[str]
) -> None:
    """Takes the packages that have these digests now. Each that is not applied is named, those that
    are not signed first, and each new one."""
    say_each("not applied, no signed index has it", sums.keys() - catalog.newest.keys())
    for own, candidates in sorted(catalog.newest.items()):
        if own not in sums:
            continue
        is_new = own in came
        reasons = [upgrades.take(own, signed, sums[own], is_new) for signed in candidates]
        if all(reasons):
            say(f"not applied, {shown(own)}: {reasons[-1]}")
        elif is_new:
            say(f"new, signed: {shown(own)} {shown(candidates[0]['Version'], 100)}")


def expected_of(old_copy: Copy, new_copy: Copy, request: ArchiveRequest) -> tuple[int, int]:
    """A private file with the database to expect by what signed packages have brought between two
    databases, and how many files were applied."""
    own = next(filter(os.path.lexists, KEYRINGS), KEYRINGS[0])
    named = [os.path.abspath(path) for path in request.keyrings or [own]]
    keyrings = {path: os.path.realpath(path) for path in named}
    paths = {*keyrings, *keyrings.values(), *map(os.fsdecode, MERGED)}
    old = Night(old_copy, paths)
    new = Night(new_copy, paths)
    keys = in_memory(b"".join(keys_of(*each, (old, new)) for each in keyrings.items()))
    releases = releases_of(request.directories, old.indexes)
    if not releases:
        for directory in request.directories:
            if not os.path.isdir(directory):
                raise DeviceFault(f"there is no directory {shown(directory, 200)}")
        raise DeviceFault("--from names no signed index", ADVICE)
    # dpkg keeps the list of a package of which it has left the configuration.
    came = new.whole - old.lists.keys() - old.sums.keys()
    halves = (new.lists.keys() - old.lists.keys()) | (new.sums.keys() - old.sums.keys())
    sums = changed(old.sums, new.sums)
    sums = {own: sums[own] for own in sums.keys() & (came | old.whole & new.whole)}
    gone = old.files.keys() - new.files.keys()
    owns = {*sums, *(own_of(file)[0] for file in gone)}
    catalog = Catalog(old.lists, owns, changed(old.files, new.files))
    if catalog.owns or catalog.files:
        catalog.read(releases, keys)
    upgrades = Upgrades(old.link, request.directories)
    take_packages(upgrades, catalog, sums, came)
    take_files(upgrades, catalog, gone)
    take_compiled(upgrades, old, new)
    take_certificates(upgrades, old, new)
    upgrades.take_removed(old.lists, old_copy, new_copy)
    upgrades.set_aside = new.set_aside
    removed = (old.lists.keys() - new.lists.keys()) | (old.sums.keys() - new.sums.keys())
    say_each("not applied, it is new", halves - came)
    say_each("not applied, it was removed", removed)
    expected = upgraded(old_copy, old.directories, new.directories, upgrades)
    return expected, len(upgrades.files)


def databases_of(request: ArchiveRequest, arguments: Sequence[str]) -> Sequence[str]:
    """The databases, of which none is an output."""
    if len(request.databases) not in (0, 2) or not request.directories:
        raise usage_fault("name --from, and both databases, OLD and NEW, or none")
    databases = request.databases or machines_databases(read_defaults(arguments))
    output = request.output
    read_from = {os.path.realpath(path) for path in databases}
    if output and read_from & {os.path.realpath(output), os.path.realpath(f"{output}.old")}:
        why = "--output is one of the databases, or FILE.old is, which would be replaced"
        raise Fault(Status.USAGE, why)
    return databases


def main(arguments: Sequence[str]) -> int:
    request = read(ArchiveRequest, arguments, HELP)
    old_path, new_path = databases_of(request, arguments)
    if not request.output:
        refuse_terminal()
    if request.user:
        give_up(request.user)
    elif request.output:
        become_owner(request.output)
    limit_memory(MAX_MEMORY)
    limit_time(MAX_SECONDS)
    old = copy_database("old", old_path, request.max_size)
    if request.output:  # However this ends from here on, that of another night is gone.
        for path in (request.output, f"{request.output}.old"):
            replace_by_copy(path, old.fd)
    new = copy_database("new", new_path, request.max_size)
    refuse_unsound(new, old)
    made, count = expected_of(old, new, request)
    if request.output:
        replace_by_copy(request.output, made)
    if not request.is_quiet:
        say(f"applied: {counted(count, 'file')}")
    if not request.output:
        write_blocks(1, blocks_of(made))
    return Status.OK
