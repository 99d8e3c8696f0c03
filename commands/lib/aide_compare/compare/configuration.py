"""What the program reads beside the databases: the configuration that a person names, and the lines
after it.

AIDE's own configuration is no part of it: it is on the host that is watched, and an option of the
report there could silence each change, that of the file itself too. Only `setup` asks what it says.
"""
from __future__ import annotations

from typing import NamedTuple

from aide_compare.base.files import trusted_text

NONE = "/dev/null"


class ConfigurationTexts(NamedTuple):
    """The text of a configuration, and of the lines after it."""

    config: bytes
    after: bytes


def configuration_in(path: str) -> bytes:
    """The text of a configuration; /dev/null is an empty one."""
    if path == NONE:
        return b""
    return trusted_text(path, "the configuration")
