"""aide-compare: finds the subcommand and runs its module. A command line as AIDE has it goes to the
proved program as it is."""
from __future__ import annotations

import os
from collections.abc import Callable, Sequence
from typing import NoReturn

from aide_compare.base.ending import Fault, OSErrorAsFault, Status, called, tell
from aide_compare.base.escapes import shown
from aide_compare.base.words import nearest

# Each is a module, of which only the one that is asked for is loaded.
COMMANDS = (
    "compare",
    "show",
    "json",
    "page",
    "mail",
    "accept",
    "archive",
    "status",
    "sort",
    "setup",
    "version",
)
# Of these the module begins with hosts_.
HOSTS = ("add", "list", "remove", "compare", "accept", "report")
# What takes an answer for the truth: it refuses a program that is not proved.
NEED_PROOF = ("mail", "accept", "setup")
PROGRAM_JOBS = {"-E", "-D", "--compare", "--config-check"}
USAGE = """\
usage: aide-compare [compare] [OPTIONS] [OLD NEW]
       aide-compare SUBCOMMAND [OPTIONS] ...

  aide-compare old.db new.db             what differs, the most severe first
  aide-compare                           this machine, after setup
  aide-compare setup                     each day on this machine, with a mail

  compare    compare two databases       json     what differs as lines of JSON
  show PATH  what changed of one path    page     what differs as a page
  mail       compare, and send a mail
  status     the last result: for you,   sort     put a database into path order
             programs and Prometheus     setup    make this machine ready
  accept     make a database the         version  the program, whether proved
             baseline
  archive    the database to expect after signed upgrades
  hosts      fetch, compare, accept and report: the same for many hosts
  help WORD  the options of a subcommand

With -E, -D, --compare or --config-check the proved program gets all arguments
and reads them as AIDE does: man aide-compare-program. The manual:
man aide-compare"""
HOSTS_USAGE = """\
usage: aide-compare hosts add [OPTIONS] HOST ...        new hosts: asks first
       aide-compare hosts list [OPTIONS] [FILE]         all and their results
       aide-compare hosts remove [OPTIONS] HOST         a host that is gone
       aide-compare hosts compare [OPTIONS] [FILE]      fetch and compare all
       aide-compare hosts accept [OPTIONS] HOST         a new baseline of a host
       aide-compare hosts report [OPTIONS] [FILE]       what differs on all

Options: aide-compare hosts add --help. The manual: man aide-compare-hosts"""
# What people type who know AIDE, and what does that here.
CHECK = "to compare: aide-compare OLD NEW, or without names after aide-compare setup"
INIT = "AIDE makes databases: aide --init; aide-compare setup has it make the first one"
UPDATE = "AIDE makes databases: aide --update; aide-compare accept makes one the baseline"
AIDES_JOBS = {"--check": CHECK, "-C": CHECK, "--init": INIT, "-i": INIT}
AIDES_JOBS.update({"--update": UPDATE, "-u": UPDATE})
HELP = ("--help", "-h")
WORDS = (*COMMANDS, "hosts", "help")


def become_program(arguments: Sequence[str]) -> NoReturn:
    """The proved program takes the place of this process."""
    import signal

    from aide_compare.base.program import PROGRAM, find_installed

    program = find_installed(PROGRAM)
    for number in (signal.SIGPIPE, signal.SIGXFSZ):  # Which the interpreter ignores.
        signal.signal(number, signal.SIG_DFL)
    with OSErrorAsFault(f"cannot run {shown(program)}"):
        os.execv(program, [program, *arguments])


def refuse_other_words(arguments: Sequence[str]) -> None:
    """Refuses a job of AIDE, and a first word that is neither a subcommand nor a database."""
    word = next(iter(arguments), "")
    if word.startswith("-"):
        for job in AIDES_JOBS.keys() & set(arguments):
            raise Fault(Status.USAGE, f"{job} is a job of aide(1)", AIDES_JOBS[job])
        return
    if not word or "/" in word or "." in word or os.path.lexists(word):
        return
    advice = AIDES_JOBS.get(f"--{word}", f"{CHECK}; the subcommands: aide-compare help")
    if near := nearest(word, WORDS):
        advice = f"did you mean: aide-compare {near}"
    raise Fault(Status.USAGE, f"there is no subcommand and no file {shown(word, 100)}", advice)


def print_usage(text: str) -> int:
    tell(text)
    return Status.OK


def loaded(name: str) -> Callable[[Sequence[str]], int]:
    """The function `main` of a module of commands."""
    import importlib

    module = importlib.import_module(f"aide_compare.commands.{name}")
    main: Callable[[Sequence[str]], int] = module.main
    return main


def check_proof(word: str, arguments: Sequence[str]) -> None:
    """Refuses a program that is not proved, but prints the help of the subcommand."""
    from aide_compare.base.program import need_proof

    if not set(HELP) & set(arguments):
        need_proof(word)


def run_hosts(arguments: Sequence[str]) -> int:
    if not arguments or arguments[0] in HELP:
        return print_usage(HOSTS_USAGE)
    word = arguments[0]
    if word not in HOSTS:
        advice = "try: aide-compare hosts --help"
        if near := nearest(word, HOSTS):
            advice = f"did you mean: {near}"
        raise Fault(Status.USAGE, f"there is no aide-compare hosts {shown(word, 100)}", advice)
    called(f"aide-compare hosts {word}")
    check_proof(f"hosts {word}", arguments)
    return loaded(f"hosts_{word}")(arguments[1:])


def print_help(words: Sequence[str]) -> int:
    """Prints the usage of the words after `help`, or of the whole."""
    if not words or words[0] in HELP:
        return print_usage(USAGE)
    if words[0] not in WORDS:
        text = f"there is no aide-compare {shown(words[0], 100)}"
        advice = f"there are: {', '.join(WORDS)}"
        if near := nearest(words[0], WORDS):
            advice = f"did you mean: {near}"
        raise Fault(Status.USAGE, text, advice)
    if words[0] == "hosts":
        return main([*words[:2], "--help"])
    return main([words[0], "--help"])


def main(arguments: Sequence[str]) -> int:
    word = next(iter(arguments), "")
    if word.startswith("-") and PROGRAM_JOBS & set(arguments):
        become_program(arguments)
    if word in HELP:
        return print_help([])
    if word == "help":
        return print_help(arguments[1:])
    if word == "hosts":
        return run_hosts(arguments[1:])
    if word == "--version":
        return run_command("version", arguments[1:])
    if word in COMMANDS:
        return run_command(word, arguments[1:])
    refuse_other_words(arguments)
    return run_command("compare", arguments)


def run_command(name: str, arguments: Sequence[str]) -> int:
    if name != "compare":
        called(f"aide-compare {name}")
    if name in NEED_PROOF:
        check_proof(name, arguments)
    return loaded(name)(arguments)
