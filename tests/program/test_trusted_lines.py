"""The program of lines, crates/aide_lines, over four databases: a pair that is compared and a
trusted pair beside it, which has no entries if it is not named.

Each answer has to be that of tests/oracle/lines.py, byte by byte: stored cases, each way of naming
the pair, faults of each of the four, outputs that fail, and random sessions.
"""
from __future__ import annotations

import collections
import glob
import itertools
import json
import os

from tests.commands.viewers.schema import Validator, schema_of_lines
from tests.lib.answer import Answer, difference, run, shown
from tests.lib.program_test import SESSIONS, new_seed
from tests.oracle.database import order_of
from tests.oracle.files import wanted_lines
from tests.oracle.lines import LINES_USAGE
from tests.oracle.session import USAGE_LINE
from tests.program import cases, happened_rows, line_rows
from tests.program.random_sessions import make_session_beside, try_sessions
from tests.program.random_texts.trusted import FAULTY, NAMED
from tests.program.real_files.test_devices import check_outputs
from tests.program.real_files.folder import EMPTY, NAMES, Folder, database
from tests.program.lines_program import LinesProgramTest, faults_of_lines

CASES = os.path.join(os.path.dirname(cases.FOLDER), cases.LINES, "*.case")
DIGESTS = (
    b"47DEQpj8HBSa+/TImW+5JCeuQeRkm5NMpJWZG3hSuFU=",
    b"1N8IG5grI+ZsrHEC+dkQMvKWyvEwMZkdkK9E7my/bjs=",
)
HEAD = b"@@begin_db\n@@db_spec name perm mtime sha256\n"
FOUR = [
    HEAD + b"/a 100644 1 %s\n/b 100644 1 %s\n@@end_db\n" % DIGESTS,
    HEAD + b"/a 100644 2 %s\n/c 100644 2 %s\n@@end_db\n" % DIGESTS,
    HEAD + b"/a 100644 3 %s\n/b 100644 3 %s\n@@end_db\n" % DIGESTS,
    HEAD + b"/c 100644 4 %s\n@@end_db\n" % DIGESTS[1],
]
REFUSED = Answer(b"", USAGE_LINE + b"\n", 15)
REFUSED_LINES = Answer(b"", LINES_USAGE + b"\n", 15)
VALIDATOR = Validator(schema_of_lines())


class TrustedTest(LinesProgramTest):
    """The program of lines over a trusted pair, beside the definitions."""

    def setUp(self) -> None:
        super().setUp()
        self.accounts: collections.Counter[bytes] = collections.Counter()

    def beside(self, words: list[bytes]) -> tuple[int, list[str]]:
        """The status that is wanted, and what is not as wanted."""
        want, answer = wanted_lines(words), run(self.lines_program, words)
        for account in (b'"same_as":"old"', b'"same_as":"trusted"', b'","left_out":', b'"kind":'):
            self.accounts[account] += answer.output.count(account)
        return want.status, difference(answer, want) + faults_of_lines(answer)

    def test_stored(self) -> None:
        """The stored cases, of which the program and the definitions give the answers."""
        for label, words, want in cases.in_turn(sorted(glob.glob(CASES))):
            self.check(label, run(self.lines_program, words), want)
            self.add("the definitions at " + label, difference(wanted_lines(words), want))
            for line in want.output.splitlines():
                self.add("the schema at " + label, VALIDATOR.faults(json.loads(line)))

    def is_accounted(self, label: str, four: list[bytes], account: str | None) -> None:
        """The lines over one path, and what accounts for its change."""
        with Folder() as folder:
            words = folder.put(four)
            answer = run(self.lines_program, words)
            self.check(label, answer, wanted_lines(words))
        first, entry, last = (json.loads(line) for line in answer.output.splitlines())
        counts = [entry.get("same_as")]
        counts += [last[name] for name in ("same_as_old", "same_as_trusted", "others")]
        wanted = [account] + [int(account == each) for each in ("old", "trusted", None)]
        self.holds(label, counts == wanted, counts)
        for line in (first, entry, last):
            self.add(f"the schema at {line}", VALIDATOR.faults(line))

    def test_accounts(self) -> None:
        """Whether a trusted entry accounts for one that came; turned round it is the same."""
        for columns, one, other, is_same in line_rows.ACCOUNTS:
            owned = [name for name in (b"uid", b"gid") if name not in columns.split()]
            columns = b" ".join([columns, *owned])
            sides = [
                database(columns, b" ".join(fields + [b"0"] * len(owned)))
                for fields in (one, other)
            ]
            for came, trusted in (sides, sides[::-1]):
                four = [EMPTY, came, EMPTY, trusted]
                self.is_accounted(shown(trusted), four, "trusted" if is_same else None)

    def try_rows(self, rows: list[happened_rows.Row]) -> None:
        columns = " ".join(happened_rows.COLUMNS).encode()
        for label, entries, account in rows:
            four = [database(columns, b" ".join(fields)) if fields else EMPTY for fields in entries]
            self.is_accounted(label, four, account)

    def test_unknown(self) -> None:
        """What AIDE was not asked for is equal to nothing."""
        self.try_rows(happened_rows.UNKNOWN)

    def test_what_happened(self) -> None:
        """A trusted machine accounts for what happened there, and not for what it always had."""
        self.try_rows(happened_rows.STOOD)
        self.try_rows(happened_rows.BOTH)

    def test_comes_by_another_step(self) -> None:
        """No right and no path is new here, and no content, but by the same step there."""
        self.try_rows(happened_rows.ATTACKS)

    def test_contents_that_came_there(self) -> None:
        """What stays silent, though it may be an attack."""
        self.try_rows(happened_rows.TOLD)

    def test_patterns(self) -> None:
        """Each pattern of one or two components, or of none, over each path of one or two names."""
        names = (b"a", b"b", b".a", b"bbc", b"a]", b"*", b"x\xff", b"-")
        paths = [b"/" + one for one in names]
        paths += [b"/%s/%s" % pair for pair in itertools.product(names, repeat=2)]
        entries = b"".join(b"%s 100644\n" % path for path in sorted(paths, key=order_of))
        text = b"@@begin_db\n@@db_spec name perm\n" + entries + b"@@end_db\n"
        patterns = [b"/" + one for one in NAMED] + FAULTY
        patterns += [b"/%s/%s" % pair for pair in itertools.product(NAMED, repeat=2)]
        with Folder() as folder:
            words = folder.put([EMPTY, text])
            for pattern in patterns:
                self.ends(f"the list {shown(pattern)}", [*words, b"--without", pattern])

    def test_words(self) -> None:
        """Each way to name a pair, and to name less or more than one."""
        with Folder() as folder:
            folder.put(FOUR)
            old = [b"--trusted-old", folder.at("trusted_old")]
            new = [b"--trusted-new", folder.at("trusted_new")]
            compared = folder.words()
            for label, words, status in (
                ("a pair", compared + old + new, 7),
                ("a pair in one word each", compared + [b"=".join(old), b"=".join(new)], 7),
                ("a pair that is exchanged", compared + [old[0], new[1], new[0], old[1]], 7),
                ("a list", compared + old + new + [b"--without", b"/a"], 7),
                ("an empty list", compared + old + [b"--without", b""] + new, 7),
                ("a list with a fault", compared + old + new + [b"--without", b"a"], 17),
                ("a list and no pair", compared + [b"--without", b"/a"], 7),
                ("a list and half of a pair", compared + old + [b"--without", b"/a"], 15),
                ("two lists", compared + old + new + 2 * [b"--without", b"/a"], 15),
                ("only the old one", compared + old, 15),
                ("only the new one", compared + new, 15),
                ("the old one twice", compared + old + old + new, 15),
                ("a path that begins with a hyphen", compared + old + [new[0], b"-x"], 15),
                ("a pair beside a check", [b"-D"] + compared[1:] + old + new, 15),
                ("a pair and no job", compared[1:] + old + new, 15),
                ("a shorter name", compared + [b"--trusted", old[1]], 15),
                ("a pair and --help", compared + old + new + [b"--help"], 15),
                ("an old one and an empty name", compared + old + [new[0], b""], 15),
                ("a path that is not there", compared + [old[0], folder.at("none")] + new, 18),
                ("a folder in place of a database", compared + old + [new[0], folder.path], 18),
            ):
                self.ends(label, words, status)
                if status == 15:
                    self.check(label, run(self.lines_program, words), REFUSED_LINES)

    def test_refused(self) -> None:
        """The program of the report refuses both options."""
        with Folder() as folder:
            words = folder.put(FOUR)
            for each in (words, words[:5], [b"-D"] + words[1:]):
                self.check("a report beside a pair", run(self.program, each), REFUSED)

    def test_first_faults(self) -> None:
        """Of several databases with a fault the first one is named."""
        for faulty in range(1, 16):
            four = [
                text.replace(b"@@end_db\n", b"") if faulty >> at & 1 else text
                for at, text in enumerate(FOUR)
            ]
            first = [at for at in range(4) if faulty >> at & 1][0]
            with Folder() as folder:
                words = folder.put(four)
                place = NAMES[first], four[first].count(b"\n") + 1
                want = Answer(b"", b"aide: %s database:%d: no @@end_db\n" % place, 24)
                answer = run(self.lines_program, words)
                self.check("faults %s" % bin(faulty), answer._replace(output=b""), want)
                self.ends("faults %s, by the definitions" % bin(faulty), words, 24)
                missing = [None if faulty >> at & 1 else text for at, text in enumerate(four)]
                self.ends("missing %s" % bin(faulty), folder.put(missing), 18)

    def test_outputs(self) -> None:
        with Folder() as folder:
            check_outputs(self, "lines", self.lines_program, folder.put(FOUR))

    def test_random_sessions(self) -> None:
        """Random sessions, in which each account has to come often."""
        try_sessions(self.beside, new_seed(), range(SESSIONS), 2, self, make_session_beside)
        if SESSIONS >= 500:  # In fewer, what comes seldom may be missing by chance.
            for account, count in self.accounts.items():
                self.assertGreater(count, SESSIONS // 50, account)
