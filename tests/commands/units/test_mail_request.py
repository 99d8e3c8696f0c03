"""What the options of a mail ask for: its own, the comparison's, and the defaults before them."""
from __future__ import annotations

from collections.abc import Sequence
from typing import Any
from unittest import mock

from tests.commands.units.calls import ModuleTest

from aide_compare.base import parser
from aide_compare.base.options import COMPARISON_DEFAULTS, MAIL_DEFAULTS, Option
from aide_compare.base.parser import OptionValues, read_defaults
from aide_compare.commands.compare_request import CompareRequest
from aide_compare.commands.mail import MailJob, MailRequest, job_of


def values_of(options: Sequence[Option]) -> OptionValues:
    return read_defaults(()).values(options)


class MailRequestTest(ModuleTest):
    def setUp(self) -> None:
        super().setUp()
        place = mock.patch.object(parser, "DIRECTORY", self.root)
        place.start()
        self.addCleanup(place.stop)

    def write_defaults(self, text: bytes) -> None:
        """Writes them as they are."""
        self.write("defaults", text)

    def asks(self, words: str, notes: Sequence[str] = (), **wanted: Any) -> MailRequest:
        """What some words ask for. Of a mail they ask for nothing else that no words ask for."""
        job = job_of(words.split())
        usual = job_of(["x", "y"]).request
        own = MailRequest.rows().keys() - CompareRequest.rows().keys()
        for name in own | wanted.keys():
            value = wanted.get(name, vars(usual)[name])
            self.assertEqual(vars(job.request)[name], value, (words, name))
        self.assertEqual(list(job.notes), list(notes), words)
        return job.request

    def test_refused(self) -> None:
        """What means nothing without another word, or with it."""
        for words, why in (
            ("--weekly Mon o n", "--weekly needs --state"),
            ("--state -", "--state: needs a file"),
            ("--unit-failed x", "--unit-failed needs --send-queue"),
            ("--unit-failed x/y --send-queue q", "needs the name of a unit"),
            ("--send-queue q --queue q", "goes with none of"),
            ("--send-queue q --test", "goes with none of"),
            ("--send-queue q --state s", "goes with none of"),
            ("--send-queue q o n", "no databases are compared"),
            ("--test o n", "no databases are compared"),
            ("--report --only o n", "unrecognized arguments: --report --only"),
            ("o n --max-age x", "--max-age"),
            ("o", "name both databases"),
        ):
            self.fails(15, why, job_of, words.split())

    def test_defaults(self) -> None:
        """The defaults come first. A fault in them costs no mail, and the mail says it."""
        self.write_defaults(b"--to a@b\n--weekly Tue\n--max-age 5d\n")
        usual = {"address": "a@b", "weekly": "Tue"}
        self.asks("--to c@d", **{**usual, "address": "c@d"})
        self.asks("o n --max-size 1G", max_age=5 * 86400, **usual)
        self.asks("-- o n", **usual)
        self.asks("--state=s", state="s", **usual)
        for line, why in (("--to -x", "address"), ("--odd", "defaults, line 1: ")):
            self.write_defaults(line.encode())
            job: MailJob = job_of(["o", "n"])
            self.assertEqual(job.request.address, "root")
            self.assertIn(why, job.fault.text if job.fault else "")

    def test_machine(self) -> None:
        """Databases and state of this machine are the defaults' ones; a list has what both say."""
        lines = b"--databases o  n\n--state s\n--weekly Tue\n--exclude /a\n"
        self.write_defaults(lines)
        missing = ["there is no baseline o: as root, aide-compare setup makes it"]
        comparison = self.asks("--exclude /b", state="s", weekly="Tue", notes=missing)
        got = (comparison.databases, comparison.state, comparison.exclude)
        self.assertEqual(got, (["o", "n"], "s", ["/a", "/b"]))
        comparison = self.asks("--state t x y", state="t", weekly="Tue")
        self.assertEqual((comparison.databases, comparison.state), (["x", "y"], "t"))
        other = self.asks("x y", weekly="Tue")
        self.assertIsNone(other.state, "the state of this machine is not of others")
        comparison = self.asks("--no-defaults", weekly=None)
        self.assertEqual((comparison.databases, comparison.exclude), ((), []))

    def test_bad_lines(self) -> None:
        """Only options that are the same for all may be among the defaults."""
        for line in (
            *("--user root", "--queue q", "--json x", "--only /x", "-c x", "o.db", "--"),
            *("--attach-page yes", "--max-age", "--odd", "--to", "--state a\0b"),
        ):
            self.write_defaults(b"# x\n\n--max-size 1G\n%s\n" % line.encode())
            options = (*COMPARISON_DEFAULTS, *MAIL_DEFAULTS)
            with self.subTest(line):
                self.fails(15, "defaults, line 4: ", values_of, options)
