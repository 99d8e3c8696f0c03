"""The rights of another user, so that a user who can write in a directory gains nothing from what
root does there."""
from __future__ import annotations

import os
import pwd
from collections.abc import Callable
from contextlib import suppress

from aide_compare.base.directories import ANYBODY, open_directory
from aide_compare.base.ending import DeviceFault, Fault, OSErrorAsFault, Status
from aide_compare.base.escapes import shown
from aide_compare.base.files import given_descriptor

MAX_NAME = 100
NOGROUP = 65534


def entry_of(uid: int) -> pwd.struct_passwd:
    """What the machine knows of a user; an entry with the number alone for one that it does not
    know."""
    try:
        return pwd.getpwuid(uid)
    except KeyError:
        return pwd.struct_passwd((str(uid), "", uid, NOGROUP, "", "/", ""))


def name_of(uid: int) -> str:
    """The name of a user for people."""
    user = entry_of(uid).pw_name
    if user == str(uid):
        return f"the user {uid}"
    return shown(user, MAX_NAME)


def _can_be_root(call: Callable[[int], None]) -> bool:
    try:
        call(0)
    except PermissionError:
        return False
    return True


def become(entry: pwd.struct_passwd) -> None:
    """This process becomes a user, with the groups and the home of the user, and makes sure that
    its rights do not come back."""
    uid = entry.pw_uid
    gid = entry.pw_gid
    with OSErrorAsFault(f"cannot become {name_of(uid)}"):
        os.setgroups(os.getgrouplist(entry.pw_name, gid))
        os.setresgid(gid, gid, gid)
        os.setresuid(uid, uid, uid)
        has_user = uid != 0 and _can_be_root(os.seteuid)  # It can whenever setuid could.
        has_group = 0 not in (uid, gid) and _can_be_root(os.setegid)
    if has_user or has_group:
        raise DeviceFault("the privileges of root cannot be given up")
    os.environ.update(HOME=entry.pw_dir or "/", USER=entry.pw_name, LOGNAME=entry.pw_name)


def give_up(user: str) -> None:
    """This process becomes a user, by name: what --user asks for."""
    try:
        entry = pwd.getpwnam(user)
    except KeyError:
        raise Fault(Status.USAGE, f"there is no user {shown(user, MAX_NAME)}")
    if os.getuid() == os.geteuid() == entry.pw_uid:
        return
    if os.geteuid() != 0:
        raise Fault(Status.USAGE, f"only root can become {shown(user, MAX_NAME)}")
    become(entry)


def owner_of(path: str) -> int | None:
    """The user, neither root nor the caller, who alone can write in the directory of a file; None
    if there is none, or several, or if the file is what the caller has opened."""
    if given_descriptor(path) is not None:
        return None
    with suppress(Fault), open_directory(os.path.dirname(path) or ".") as directory:
        if len(directory.others) == 1 and ANYBODY not in directory.others:
            return min(directory.others)
    return None


def become_owner(*paths: str) -> None:
    """Root becomes for good the user in whose directories these files are, so that what this user
    puts there is read and written with no more than the user's rights."""
    if os.geteuid() != 0:
        return
    users = {user for user in map(owner_of, paths) if user is not None}
    if len(users) > 1:
        names = " and ".join(map(name_of, sorted(users)))
        raise Fault(Status.USAGE, f"the files are in directories of {names}: choose one by --user")
    for user in users:
        become(entry_of(user))
