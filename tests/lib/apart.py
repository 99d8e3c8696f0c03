"""Commands that cannot change the machine: for bugs that are planted, whose trials attack what
should guard it. And mounts that nobody else sees."""
from __future__ import annotations

import ctypes
import functools
import os
import subprocess
from collections.abc import Sequence

# Read-only in a mount namespace of the command. Trials write below /tmp, /var/tmp and /run.
FOLDERS = "/boot /etc /home /opt /root /srv /usr /var/lib /var/log /var/mail /var/spool"
SCRIPT = (
    "for folder in %s; do [ ! -d $folder ] ||"
    " { mount --bind $folder $folder && mount -o remount,bind,ro $folder; } || exit 125; done\n"
    'exec "$@"'
) % FOLDERS
PREFIX = ["unshare", "--mount", "--propagation", "private", "sh", "-c", SCRIPT, "sh"]


@functools.lru_cache(maxsize=None)
def prefix() -> list[str]:
    """The words before a command, or none: without root's rights the machine's folders are safe,
    and some machines refuse."""
    if os.geteuid() != 0:
        return []
    try:
        done = subprocess.run(
            PREFIX + ["true"], stdout=subprocess.DEVNULL, stderr=subprocess.DEVNULL
        )
    except OSError:
        return []
    return PREFIX if done.returncode == 0 else []


def apart(words: Sequence[str]) -> list[str]:
    """The words of a command that runs so."""
    return prefix() + list(words)


@functools.lru_cache(maxsize=None)
def has_own_mounts() -> bool:
    """Whether this process has mounts that only its children share: the thread that asks first gets
    them, and those that it starts. (Python 3.9 has no os.unshare.)"""
    if os.geteuid() != 0:
        return False
    library = ctypes.CDLL(None)
    new_mounts, recursive_private = 0x20000, 0x44000
    if library.unshare(new_mounts) != 0:
        return False
    return bool(library.mount(None, b"/", None, recursive_private, None) == 0)


def forget_user(name: str, folder: str) -> None:
    """Hides a user and a group, which a package such as AIDE's may have made, from this process and
    its children. `folder` gets the files that are seen instead."""
    names = [path for path in ("/etc/passwd", "/etc/group") if has_entry(path, name)]
    if not names or not has_own_mounts():
        return
    for path in names:
        with open(path) as file:
            lines = [line for line in file if not line.startswith(name + ":")]
        other = os.path.join(folder, os.path.basename(path))
        with open(other, "w") as file:
            file.writelines(lines)
        os.chmod(other, 0o644)
        subprocess.run(["mount", "--bind", other, path], check=True)


def has_entry(path: str, name: str) -> bool:
    with open(path) as file:
        return any(line.startswith(name + ":") for line in file)
