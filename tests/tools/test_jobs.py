"""How many checks may run at a time, by made-up files of the kernel."""
from __future__ import annotations

import os
import unittest
from unittest import mock

from tests.lib.scratch import Scratch
from tools.lib.jobs import free_memory, jobs

GB = 1000**3
MEMORY = f"MemTotal: {23 * 10**6} kB\nMemFree: 900 kB\nMemAvailable:   {20 * 10**6} kB\n"
EACH = 1600 * 10**6


class Jobs(unittest.TestCase):
    def setUp(self) -> None:
        self.scratch = Scratch()
        self.scratch.make()
        self.addCleanup(self.scratch.remove)
        self.scratch.write("proc/meminfo", MEMORY)

    def free(self) -> int:
        return free_memory(self.scratch.root)

    def write_group(self, group: str, limit: str, used: str, version: int) -> None:
        """Writes the files of a control group, and of the process in it."""
        line, place, name = f"0::{group}\n", "sys/fs/cgroup", "memory.max"
        if version == 1:
            line, place, name = (
                f"4:memory:{group}\n0::/\n",
                "sys/fs/cgroup/memory",
                "memory.limit_in_bytes",
            )
        self.scratch.write("proc/self/cgroup", line)
        self.scratch.write(os.path.join(place + group, name), f"{limit}\n")
        self.scratch.write(os.path.join(place + group, "memory.stat"), used)

    def test_without_a_group_the_machine_counts(self) -> None:
        self.assertEqual(self.free(), 20480 * 10**6)

    def test_a_group_without_a_limit_changes_nothing(self) -> None:
        self.write_group("/user.slice", "max", f"anon {5 * GB}\n", 2)
        self.assertEqual(self.free(), 20480 * 10**6)

    def test_a_limited_group_counts_less_what_it_keeps(self) -> None:
        self.write_group("/job", f"{8 * GB}", f"anon {2 * GB}\nfile {5 * GB}\nshmem {GB}\n", 2)
        self.assertEqual(self.free(), 5 * GB)

    def test_a_limited_group_above_counts(self) -> None:
        self.write_group("/job", f"{8 * GB}", f"anon {GB}\n", 2)
        self.write_group("/job/part", "max", "anon 0\n", 2)
        self.assertEqual(self.free(), 7 * GB)

    def test_groups_of_the_first_version(self) -> None:
        self.write_group("/job", f"{8 * GB}", f"rss 1\ntotal_rss {3 * GB}\ntotal_shmem {GB}\n", 1)
        self.assertEqual(self.free(), 4 * GB)

    def test_a_container_sees_its_group_as_the_top(self) -> None:
        self.write_group("", f"{8 * GB}", "anon 0\n", 2)
        self.scratch.write("proc/self/cgroup", "0::/../../outside\n")
        self.assertEqual(self.free(), 8 * GB)

    def test_a_full_group_has_nothing_free(self) -> None:
        self.write_group("/job", f"{GB}", f"anon {2 * GB}\n", 2)
        self.assertEqual(self.free(), 0)

    def test_by_processors_and_by_memory(self) -> None:
        for cores, free, wanted in ((4, 20 * GB, 4), (4, 6 * GB, 3), (2, 20 * GB, 2), (4, GB, 1)):
            with self.subTest(cores=cores, free=free):
                processors = mock.patch("os.sched_getaffinity", lambda _, n=cores: set(range(n)))
                memory = mock.patch("tools.lib.jobs.free_memory", lambda n=free: n)
                with processors, memory:
                    self.assertEqual(jobs(EACH), wanted)

    def test_on_this_machine(self) -> None:
        self.assertIn(jobs(EACH), range(1, len(os.sched_getaffinity(0)) + 1))
