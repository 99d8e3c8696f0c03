"""The rights of another user: what root gives up for good, and for whom."""
from __future__ import annotations

import os
import pwd
import unittest
from collections.abc import Callable
from typing import Any
from unittest import mock

from tests.commands.units.calls import OTHER, ModuleTest, PlacesTest, in_child

from aide_compare.base import files, rights

UNKNOWN = 4000000000


def user(uid: int, gid: int, home: str = "") -> pwd.struct_passwd:
    return pwd.struct_passwd(("somebody", "", uid, gid, "", home, ""))


def identity() -> str:
    """Who this process is, and who its environment says that it is."""
    names = [os.environ.get(name) for name in ("HOME", "USER", "LOGNAME")]
    return repr((os.getresuid(), os.getresgid(), os.getgroups(), names))


def identity_of(entry: pwd.struct_passwd) -> str:
    gid = entry.pw_gid
    names = [entry.pw_dir or "/", entry.pw_name, entry.pw_name]
    return repr(((entry.pw_uid,) * 3, (gid,) * 3, os.getgrouplist(entry.pw_name, gid), names))


def identity_after(work: Callable[..., object], *given: Any) -> str:
    """Who a child is after some work."""

    def work_and_look() -> bytes:
        work(*given)
        return identity().encode()

    return in_child(work_and_look).decode()


def give_up_as_other(name: str) -> None:
    rights.become(user(OTHER, OTHER))
    os.environ["USER"] = "as before"
    rights.give_up(name)


@unittest.skipUnless(os.getuid() == 0, "it needs root")
class RightsTest(ModuleTest):
    def setUp(self) -> None:
        super().setUp()
        self.addCleanup(os.setgroups, os.getgroups())
        os.setgroups([0, 4])

    def test_become(self) -> None:
        for entry in (user(OTHER, 1, "/somewhere"), user(OTHER, 0), pwd.getpwuid(0)):
            self.gives(identity_of(entry), identity_after, rights.become, entry)

    def test_come_back(self) -> None:
        """A user or a group that root could be again is a failure."""
        set_user = os.setresuid
        set_group = os.setresgid
        calls = {
            "setresuid": lambda uid, *_: set_user(uid, uid, 0),
            "setresgid": lambda gid, *_: set_group(gid, gid, 0),
        }
        for name, uid, gid in (
            ("setresuid", 1, 1),
            ("setresuid", OTHER, 0),
            ("setresgid", OTHER, 1),
        ):
            with mock.patch.object(os, name, calls[name]):
                self.fails(18, "cannot be given up", identity_after, rights.become, user(uid, gid))

    def test_give_up(self) -> None:
        nobody = pwd.getpwuid(OTHER)
        self.gives(identity_of(nobody), identity_after, rights.give_up, nobody.pw_name)
        self.gives(identity(), identity_after, rights.give_up, "root")
        self.assertIn("as before", identity_after(give_up_as_other, nobody.pw_name))
        self.fails(15, "only root can become root", identity_after, give_up_as_other, "root")
        self.fails(15, f"there is no user {'x' * 100}...", rights.give_up, "x" * 101)
        self.gives("root", rights.name_of, 0)
        self.gives(f"the user {UNKNOWN}", rights.name_of, UNKNOWN)

    def test_nothing_is_left(self) -> None:
        """Whoever has become a user has no capability, and opens no file of root's."""

        def look() -> bytes:
            rights.become(user(OTHER, OTHER))
            with open("/proc/self/status") as file:
                lines = [line.split() for line in file if line.startswith(("CapEff", "CapPrm"))]
            return repr([line[1] for line in lines]).encode()

        def read_secret() -> bytes:
            rights.become(user(OTHER, OTHER))
            return b"%d" % files.open_regular("/etc/shadow")

        self.gives(repr(["0" * 16] * 2).encode(), in_child, look)
        self.fails(18, "ermission denied", in_child, read_secret)


class OwnersTest(PlacesTest):
    def test_owner(self) -> None:
        """Whose rights a comparison has: those of the one other user who can write there."""
        self.addCleanup(os.chdir, os.getcwd())
        os.chdir(self.path("own"))
        names = ["file", *(self.path(name) for name in ("own/x", "sticky/x", "group/x"))]
        for name in (*names, "/dev/fd/3", "-", self.path("none/x")):
            self.gives(None, rights.owner_of, name)
            self.gives(None, rights.become_owner, name)
        with self.subTest("another user's places"):
            self.needs_root()
            self.gives(OTHER, rights.owner_of, self.path("his/x"))
            self.as_owner()
            os.chown(self.path("his/roots"), 1, 1)
            self.gives(None, rights.owner_of, self.path("his/roots/x"))
            os.chdir(self.path("his"))
            self.gives(OTHER, rights.owner_of, "x")
            self.gives(None, rights.owner_of, "-")

    def as_owner(self) -> None:
        """Root becomes the one owner of all these files; of several it wants to know which."""
        os.mkdir(self.path("hers"))
        os.chown(self.path("hers"), 1, 1)
        his = (self.path("his/x"), self.path("own/x"), "-")

        def become_and_look() -> bytes:
            for _ in range(2):
                rights.become_owner(*his)
            return repr(os.getresuid()).encode()

        self.gives(repr((OTHER,) * 3).encode(), in_child, become_and_look)
        self.fails(15, "choose one by --user", rights.become_owner, *his, self.path("hers/x"))
