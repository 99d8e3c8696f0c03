"""Completions: bash reads them, and has each subcommand with the options of its help."""
from __future__ import annotations

import re

from tests.commands.units.calls import helped
from tests.lib.program_test import slow
from tests.packaging.installation import InstallTest

BASH = "share/bash-completion/completions/aide-compare"
SUBCOMMANDS = "compare show json page mail accept archive status sort setup version".split()
HOSTS = ["hosts " + word for word in ("add", "list", "remove", "compare", "accept", "report")]

# What bash offers for the last word of a line.
COMPLETED: dict[str, list[str]] = {
    "hosts ": [words[6:] for words in HOSTS],
    "status --format ": ["json", "nagios", "prometheus", "text"],
    "-c VERS": ["VERSION"],
    "--config = VERS": ["VERSION"],
    "--exclude-from VERS": ["VERSION"],
    "--exclude VERS": [],
    "hosts report --store VERS": [],
    "mail -A VERS": [],
    "mail --weekly = M": ["Mon"],
    "sort VERS": ["VERSION"],
    "hosts report --format j": ["json"],
    "hosts report --store pack": ["packaging"],
    "hosts compare VERS": ["VERSION"],
}

# bash-completion reads the file inside of a function of its own.
ASK_BASH = r"""
load() { . "$1"; }
load "$1"
shift
COMP_WORDS=("$@") COMP_CWORD=$(($# - 1)) COMPREPLY=()
function=$(complete -p "$1") || exit 9
function=${function#*-F }
"${function%% *}"
printf '%s\n' "${COMPREPLY[@]}"
"""


def options(words: str) -> list[str]:
    """The options that the help of a subcommand has."""
    text = helped(*words.split(), "--help").decode()
    found = {"--help"} | named_in(text)
    for line in re.findall(r"^usage: .*(?:\n {4,}.*)*", text, re.M):
        found |= set(re.findall(r"[\[(| ](--?[A-Za-z][\w-]*)", line))
    if words == "status":
        found |= named_in(helped("status", "--format", "prometheus", "--help").decode())
    return sorted(found - {"-h"})


def named_in(text: str) -> set[str]:
    """The options that lines of a help begin with."""
    found = set()
    for line in re.findall(r"^\s+(-.*)$", text, re.M):
        found |= set(re.findall(r"(?:^|, )(--?[A-Za-z][\w-]*)", line))
    return found


def ask_bash(trial: InstallTest, *words: str) -> list[str]:
    command = ["bash", "--norc", "-c", ASK_BASH, "bash", trial.first(BASH)]
    done = trial.run_words([*command, *words], cwd=trial.source)
    trial.assertEqual((done.status, done.errors), (0, b""), ("bash completes", words))
    return done.output_text.split()


@slow
class CompletionsTest(InstallTest):
    def test_bash(self) -> None:
        self.needs("bash")
        for words in SUBCOMMANDS + HOSTS:
            offered = ask_bash(self, "aide-compare", *words.split(), "-")
            self.assertEqual(set(offered), set(options(words)), f"options of {words}")
        offered = ask_bash(self, "aide-compare", "s")
        self.assertLessEqual({"status", "sort", "setup"}, set(offered), "subcommands")
        for line, wanted in COMPLETED.items():
            offered = ask_bash(self, "aide-compare", *line.split(" "))
            self.assertEqual(sorted(offered), sorted(wanted), f"bash completes {line}")
