"""What keeps the mails of this machine from whoever reads them, as far as it can be seen here."""
from __future__ import annotations

import os
from collections.abc import Iterator
from contextlib import suppress

from aide_compare.base.directories import names_in, open_directory
from aide_compare.base.ending import Fault
from aide_compare.base.escapes import shown
from aide_compare.base.parser import MAY_BE_DEFAULTS, read_defaults
from aide_compare.base.words import counted
from aide_compare.mail.sending import MAIL, find_mailer


def troubles(queue: str) -> Iterator[str]:
    """A line for the mails that wait in a directory, for its owner, and for what no mail is sent
    without."""
    with suppress(Fault, OSError), open_directory(queue) as directory:
        count = len(names_in(directory, MAIL))
        if count:
            yield f"{counted(count, 'mail')} that could not be sent yet: {shown(queue)}"
        if os.fstat(directory.fd).st_uid != os.stat("..", dir_fd=directory.fd).st_uid:
            yield f"the owner of {shown(queue)}: that of the directory above"
    try:
        find_mailer()
    except Fault as fault:
        yield fault.text
    try:
        read_defaults(()).values(MAY_BE_DEFAULTS.values())
    except Fault as fault:
        yield fault.text
