"""The databases of this machine: those of the defaults, or before these are written those of AIDE's
configuration. The program says what that means."""
from __future__ import annotations

import os
import re

from aide_compare.base.ending import Fault, Status
from aide_compare.base.escapes import shown
from aide_compare.base.options import DATABASES
from aide_compare.commands.setup_machine import PATHS, aides_configuration
from aide_compare.commands.setup_options import options_there
from aide_compare.compare.asking import settings_of
from aide_compare.compare.configuration import ConfigurationTexts, configuration_in

# Lines with the options of other files, which name no database.
INCLUDES = rb"(?m)^[ \t]*@@(?:x_)?include[^\n]*"
# Lines that name a database. Of two lines AIDE takes the first, and the program the last.
NAMING = (rb"(?m)^[ \t]*database(?:_in)?[ \t]*=", rb"(?m)^[ \t]*database_new[ \t]*=")
# What is no part of the name of a machine, which AIDE defines.
OTHER_BYTES = rb"[^A-Za-z0-9._-]"
WRITTEN = rb"(?m)^([ \t]*)database_out([ \t]*=)"


def databases_there() -> list[str]:
    """The baseline and the new database."""
    named = options_there().get(DATABASES.name, "").split()
    if len(named) == DATABASES.number_of_values:
        return named
    path = aides_configuration()
    host = re.sub(OTHER_BYTES, b"", os.fsencode(os.uname().nodename))
    text = b"@@define HOSTNAME %s\n" % host + re.sub(INCLUDES, b"", configuration_in(path))
    named = named_by(text)
    if len(named) == 1:  # What AIDE writes is what is compared next.
        text = re.sub(WRITTEN, rb"\1database_new\2", text)
        named = named_by(text)
    is_twice = any(len(re.findall(lines, text)) > 1 for lines in NAMING)
    if len(named) != 2 or is_twice or re.search(r"\s", "".join(named)):
        why = f"{shown(path)} does not name two databases, each once and without blanks"
        hint = f"write into {PATHS.defaults}: {DATABASES.name} OLD NEW"
        raise Fault(Status.CONFIGURATION, why, hint)
    return named


def named_by(text: bytes) -> list[str]:
    """The databases that a configuration names, the old one first."""
    settings = settings_of(ConfigurationTexts(text, b""))
    paths = [settings.get(name) for name in ("database_in", "database_new")]
    return [os.fsdecode(str(path).encode()) for path in paths if path is not None]
