"""The administrator's options of a comparison, as all commands that compare take them, and the list
of what is left out."""
from __future__ import annotations

import os
from collections.abc import Callable, Sequence
from contextlib import suppress
from typing import TYPE_CHECKING

from aide_compare.base.ending import Fault, Status, say
from aide_compare.base.escapes import shown
from aide_compare.base.files import is_missing
from aide_compare.base.options import (
    COMPARISON_DEFAULTS,
    DATABASES,
    MACHINES_DEFAULTS,
    STATE,
    TRUSTED,
)
from aide_compare.base.parser import Defaults, OptionValues, administrators_file

if TYPE_CHECKING:
    from aide_compare.compare.exclusions import Exclusions


ADVICE = "name OLD and NEW, or as root: aide-compare setup"


def machines_databases(defaults: Defaults) -> Sequence[str]:
    """The baseline and the new database of this machine, as the administrator's defaults name
    them."""
    named = defaults.values((DATABASES,)).get(DATABASES.attribute)
    if not named:
        raise Fault(Status.USAGE, "no databases are named", ADVICE)
    return list(named)


def machines_state(defaults: Defaults, databases: Sequence[str]) -> str | None:
    """The state file that the administrator's defaults name for this machine, though other lines
    of them have a fault."""
    values = defaults.values((STATE, DATABASES), passes_faults=True)
    if not databases or are_named(databases, values):
        return values.get(STATE.attribute)
    return None


def is_same(path: str, named: str) -> bool:
    """Whether two names are those of one file, which may be missing."""
    with suppress(OSError):
        return os.path.samefile(path, named)
    return os.path.realpath(path) == os.path.realpath(named)


def are_named(databases: Sequence[str], values: OptionValues) -> bool:
    """Whether the databases are those that the defaults name, by whatever names."""
    named = values.get(DATABASES.attribute, ())
    return bool(named) and all(map(is_same, databases, named))


def comparison_defaults(
    defaults: Defaults, databases: Sequence[str], note: Callable[[str], None] = say
) -> OptionValues:
    """What the administrator's defaults give the options of a comparison. `databases` are those
    that the command line names, if it names some."""
    values = defaults.values(COMPARISON_DEFAULTS)
    if databases and not are_named(databases, values):
        names = {option.attribute for option in MACHINES_DEFAULTS}
        return {name: value for name, value in values.items() if name not in names}
    named = values.get(DATABASES.attribute, ())
    if named and is_missing(named[0]):
        note(f"there is no baseline {shown(named[0])}: as root, aide-compare setup makes it")
    missing = [path for path in values.get(TRUSTED.attribute, ()) if not os.path.lexists(path)]
    if missing:
        if not (named and is_missing(named[0])):  # Without a baseline nothing is compared.
            note(f"there is no {shown(missing[0])} yet, so it accounts for no change")
        del values[TRUSTED.attribute]
    return values


def exclusions_of(
    paths: Sequence[str],
    patterns: Sequence[str],
    defaults: Defaults,
    databases: Sequence[str] = (),
) -> Exclusions | None:
    """The list of what is left out: the files of the options, or else that of the administrator,
    and the patterns. If the defaults name these databases, they are looked up with it, and so is
    the table of severities."""
    others: dict[str, bytes] = {}
    if databases and are_named(databases, defaults.values((DATABASES,))):
        from aide_compare.changes.severity import shipped_table

        others = dict(filter(None, [defaults.file]))
        with suppress(Fault):  # Whoever judges the changes says that there is no table.
            others.update([shipped_table()])
    if not paths and defaults.are_wanted:
        usual = administrators_file("without")
        if usual:
            paths = [usual]
    if not paths and not patterns and not others:
        return None
    from aide_compare.compare.exclusions import read_exclusions

    return read_exclusions(paths, patterns, others)
