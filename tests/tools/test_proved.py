"""The order in which crates are proved, what is said meanwhile, and how it ends; a made-up
toolchain notes what it is asked for."""
from __future__ import annotations

import io
import os
import re
import signal
import subprocess
import sys
import time
from contextlib import redirect_stdout
from unittest import mock

from tests.tools.made_up_kit import KitTest
from tools.gate import proved
from tools.source.checker import below, libraries

MODULE = "tools.gate.proved"
# What stands for rt's own module: it notes when the proof of a library begins and ends.
RTLIB = """
import fcntl, os, time
HERE = {here!r}

def note(text):
    with open(os.path.join(HERE, "calls"), "a") as file:
        file.write(text + "\\n")

class Crate:
    def __init__(self, folder, root, known):
        self.folder, self.name, self.out = folder, os.path.basename(folder), None

    def is_built(self):
        return os.path.exists(self.folder + "/out/built")

    def build_rlib(self, flags, anew):
        note(f"begin {{self.name}} {{flags[1]}}")
        time.sleep({seconds})
        print("what", self.name, "says", file=self.out, flush=True)
        if os.path.exists(self.folder + "/wrong"):
            return 1
        os.makedirs(self.folder + "/out", exist_ok=True)
        open(self.folder + "/out/built", "w").close()
        note(f"end {{self.name}}")
        return 0

def guarded():
    note("guarded")

def lock(crates):
    note("lock " + " ".join(sorted(each.name for each in crates)))
    held = os.open(HERE + "/lock", os.O_RDONLY | os.O_CREAT)
    fcntl.flock(held, fcntl.LOCK_EX)
    return [held]

def kit_sources(names):
    return []
"""
# And for rt itself, whose `run` waits for the lock.
RT = """echo "$* ${PWD##*/}" >> %s/calls
[ $1 != run ] || { flock -n %s/lock true || exit 1; mkdir -p out; echo new > out/${PWD##*/}; }
%s"""


class Proved(KitTest):
    def write_module(self, seconds: float = 0) -> None:
        self.write("kit/bin/rtlib.py", RTLIB.format(here=self.root, seconds=seconds))

    def write_command(self, more: str = "") -> None:
        self.write("calls", "")
        self.write_rt(RT % (self.root, self.root, more))

    def calls(self) -> list[str]:
        lines = self.read("calls").decode().splitlines()
        self.write("calls", "")
        return [re.sub(r"--jobs \d+", "--jobs N", line) for line in lines]

    def test_by_commands(self) -> None:
        """With a toolchain of another form: each library once, after those that it uses."""
        self.write_command()
        done = self.run_tool(MODULE, "aide_lines")
        self.assertEqual((done.status, done.error_text), (0, ""), done)
        libs = [f"lib --jobs N {name}" for name in ("low", "high", "aside")]
        run = "run --jobs N -- -D -c /dev/null "
        calls = self.calls()
        self.assertEqual(sorted(calls[:3]), sorted(libs))
        self.assertLess(calls.index(libs[0]), calls.index(libs[1]))
        self.assertEqual(calls[3:], [run + "aide_lines"])
        for name in ("low", "high", "aside"):
            self.write(f"clone/crates/{name}/out/rlib/{name}.rlib", "")
        self.run_tool(MODULE)
        self.assertEqual(self.calls(), [run + "aide_lines", run + "aide"])

    def test_by_the_module(self) -> None:
        """What is built is left as it is; the lock is given back before the programs."""
        self.write_module()
        self.write_command()
        self.write("clone/crates/low/out/built", "")
        done = self.run_tool(MODULE, "aide")
        self.assertEqual((done.status, done.error_text), (0, ""), done)
        calls = [re.sub(r"\d", "N", call) for call in self.calls()]
        wanted = ["lock high low", "guarded", "begin high N", "end high"]
        self.assertEqual(calls, [*wanted, "run --jobs N -- -D -c /dev/null aide"])

    def test_side_by_side(self) -> None:
        """The crate on which most rests has all jobs but one, and another one goes beside it."""
        self.write_module(0.5)
        self.write_command()
        lanes = mock.patch.object(proved, "lanes", lambda: [3, 1])
        top = mock.patch.object(proved, "TOP", self.path("clone"))
        path = mock.patch.dict(os.environ, self.environment())
        found = mock.patch("tools.source.checker.TOP", self.path("clone"))
        with lanes, top, path, found, redirect_stdout(io.StringIO()):
            self.assertIsNone(proved.prove_all(["aide_lines"]))
        calls = self.read("calls").decode().splitlines()
        self.assertEqual(set(calls[2:4]), {"begin low 3", "begin aside 1"})
        self.assertLess(calls.index("end low"), calls.index("begin high 3"))

    def test_a_crate_that_is_not_proved(self) -> None:
        self.write_module()
        self.write_command()
        self.write("clone/crates/low/wrong", "")
        done = self.run_tool(MODULE, "aide_lines")
        self.assertEqual(done.status, 1)
        self.assertIn("low was not proved:\nwhat low says\n", done.output_text)
        self.assertFalse([call for call in self.calls() if "high" in call and "lock" not in call])
        self.write_command("exit 1")
        done = self.run_tool(MODULE, "aide")
        self.assertEqual(done.status, 1, done)

    def test_a_program_is_as_old_as_its_proof(self) -> None:
        """So one that rt leaves as it is becomes new, and one whose source changes meanwhile is
        older than that."""
        program, source = "clone/crates/aide/out/aide", self.path("clone/crates/low/src/lib.rt")
        self.write_module()
        self.write_command()
        self.run_tool(MODULE, "aide")
        os.utime(self.path(program), (1, 1))
        self.run_tool(MODULE, "aide")
        self.assertGreater(os.stat(self.path(program)).st_mtime, os.stat(source).st_mtime)
        self.write_command(f"echo >> {source}")
        self.run_tool(MODULE, "aide")
        self.assertLess(os.stat(self.path(program)).st_mtime, os.stat(source).st_mtime)

    def test_a_signal_ends_it(self) -> None:
        """It says so, and what is proved by then is not proved again."""
        self.write_module(1.5)
        self.write_command()
        command = [sys.executable, "-S", "-m", MODULE, "aide"]
        pipes = {"cwd": self.path("clone"), "env": self.environment(), "stdout": subprocess.PIPE}
        with subprocess.Popen(command, **pipes) as tool:  # type: ignore[call-overload]
            while b"begin high" not in self.read("calls"):
                time.sleep(0.05)
            tool.send_signal(signal.SIGINT)
            output = tool.communicate(timeout=60)[0]
        said = b"stopped; the next run goes on with what is proved\n"
        self.assertEqual((tool.returncode, output[-len(said) :]), (128 + signal.SIGINT, said))
        self.calls()
        self.run_tool(MODULE, "aide")
        self.assertNotIn("begin low 4", " ".join(self.calls()))

    def test_what_is_said_each_minute(self) -> None:
        """The share of the work, which a crate that is being proved has too."""
        self.write_module(0.4)
        self.write_command()
        self.write("clone/crates/low/src/more.rt", "//\n" * 38)
        text = "import tools.gate.proved as it; it.MINUTE = 0.1; it.main()"
        command = [sys.executable, "-S", "-c", text, "aide"]
        done = subprocess.run(
            command, cwd=self.path("clone"), env=self.environment(), stdout=subprocess.PIPE
        )
        line = r"  (\d+)% of the work done in 0 min, about \d+ min left: [a-z]+(, [a-z]+)*\n"
        first = (
            "  3 crates to prove, about 1 min if nothing else runs; if you stop it, the next run"
        )
        self.assertRegex(done.stdout.decode(), f"^{first} goes on\n({line})+$")


class Numbers(KitTest):
    def test_jobs(self) -> None:
        """By processors and memory: those of the first crate, and of one beside it."""
        gigabyte = 10**9
        for cores, memory, wanted in (
            (4, 22, [4, 1]),
            (4, 7, [3, 1]),
            (4, 5, [2, 1]),
            (4, 4, [2]),
            (4, 1, [1]),
            (2, 22, [2, 1]),
            (1, 22, [1]),
        ):
            with self.subTest(cores=cores, memory=memory):
                of_memory = lambda n=memory * gigabyte: n
                one = mock.patch("tools.gate.proved.free_memory", of_memory)
                other = mock.patch("tools.lib.jobs.free_memory", of_memory)
                processors = mock.patch("os.sched_getaffinity", lambda _, n=cores: set(range(n)))
                with one, other, processors:
                    self.assertEqual(proved.lanes(), wanted)

    def test_of_this_repository(self) -> None:
        """Each crate below a program costs something, and costs more with what it loads."""
        uses = libraries()
        costs = proved.costs_of([*below("aide_lines", uses), "aide_lines"], uses)
        self.assertGreater(min(costs.values()), 100)
        self.assertGreater(costs["aide_lines"], proved.lines_of("aide_lines") + 100)
