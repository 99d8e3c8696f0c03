"""Makes small mistakes in a module of the commands, drawn at random, and tells which of them no
test sees.

A mistake is a comparison or condition turned round, another number, a flag, argument or statement
left out. For each one the named tests run in a copy, one after another, until one fails or hangs:
name the quickest first. What none of them sees is printed with its line. It may mean the same as
the text, so somebody has to read it: either it is no mistake, or a test is missing. The last line
is 'N passed, M failed', where what was not seen counts as failed.
"""
from __future__ import annotations

import argparse
import ast
import copy
import os
import random
import signal
import subprocess
import sys
import tempfile
from collections.abc import Iterator
from typing import Any, NamedTuple

from tests.lib.apart import apart
from tests.lib.copies import copy_sources
from tests.lib.programs import VARIABLE
from tests.lib.scratch import TOP
from tests.lib.tally import Tally, side_by_side
from tools.lib.arguments import add_program, parser_of

TURNED: dict[type[ast.cmpop], type[ast.cmpop]] = {
    ast.Eq: ast.NotEq,
    ast.NotEq: ast.Eq,
    ast.Lt: ast.LtE,
    ast.LtE: ast.Lt,
    ast.Gt: ast.GtE,
    ast.GtE: ast.Gt,
    ast.Is: ast.IsNot,
    ast.IsNot: ast.Is,
    ast.In: ast.NotIn,
    ast.NotIn: ast.In,
}
OTHER: dict[type[ast.operator], type[ast.operator]] = {
    ast.Add: ast.Sub,
    ast.Sub: ast.Add,
    ast.BitOr: ast.BitAnd,
}


class Mutant(NamedTuple):
    """A text with a mistake: the line of it, what stands there, and what stood there."""

    line: int
    change: str
    text: str


def changed(node: ast.AST, **fields: Any) -> ast.AST:
    """A copy of a node with other fields."""
    made = copy.copy(node)
    for name, value in fields.items():
        setattr(made, name, value)
    return made


def of_expression(node: ast.AST) -> Iterator[ast.AST]:
    """What may stand in the place of an expression."""
    if isinstance(node, ast.Compare):
        for at, sign in enumerate(node.ops):
            signs = [*node.ops[:at], TURNED[type(sign)](), *node.ops[at + 1 :]]
            yield changed(node, ops=signs)
    elif isinstance(node, ast.BoolOp):
        yield changed(node, op=ast.Or() if isinstance(node.op, ast.And) else ast.And())
        for value in node.values:
            rest = [other for other in node.values if other is not value]
            yield rest[0] if len(rest) == 1 else changed(node, values=rest)
    elif isinstance(node, ast.UnaryOp) and isinstance(node.op, ast.Not):
        yield node.operand
    elif isinstance(node, ast.BinOp) and type(node.op) in OTHER:
        if isinstance(node.op, ast.BitOr):
            yield from (node.left, node.right)
        yield changed(node, op=OTHER[type(node.op)]())
    elif isinstance(node, ast.Constant) and isinstance(node.value, bool):
        yield ast.Constant(not node.value)
    elif isinstance(node, ast.Constant) and isinstance(node.value, int):
        yield from (ast.Constant(node.value + step) for step in (1, -1))
    elif isinstance(node, ast.Call):
        for word in node.keywords:
            yield changed(node, keywords=[other for other in node.keywords if other is not word])


def alternatives(node: ast.AST) -> Iterator[ast.AST]:
    """What may stand in the place of a node."""
    if isinstance(node, (ast.If, ast.IfExp, ast.While)):
        yield from (changed(node, test=ast.Constant(value)) for value in (True, False))
    elif isinstance(node, ast.Expr) and isinstance(node.value, ast.Call):
        yield ast.Pass()
    elif isinstance(node, ast.Return) and getattr(node.value, "value", "") is not None:
        yield ast.Return(ast.Constant(None))
    else:
        yield from of_expression(node)


class Replacement(ast.NodeTransformer):
    """Puts another node in the place of one."""

    def __init__(self, node: ast.AST, other: ast.AST) -> None:
        self.node = node
        self.other = other

    def visit(self, node: ast.AST) -> Any:
        return self.other if node is self.node else self.generic_visit(node)


def places(node: ast.AST) -> Iterator[ast.AST]:
    """The nodes of a tree, but for annotations: these are for whoever reads."""
    for name, value in ast.iter_fields(node):
        for child in value if isinstance(value, list) else [value]:
            if isinstance(child, ast.AST) and name not in ("annotation", "returns"):
                yield child
                yield from places(child)


def drawn(text: str, count: int, numbers: random.Random) -> Iterator[Mutant]:
    """Some mutants of a text."""
    nodes = enumerate(places(ast.parse(text)))
    every = [(at, which) for at, node in nodes for which in range(len([*alternatives(node)]))]
    for at, which in numbers.sample(every, min(count, len(every))):
        tree = ast.parse(text)
        node = list(places(tree))[at]
        other = list(alternatives(node))[which]
        change = f"{ast.unparse(other)[:200]}, not {ast.unparse(node)[:200]}"
        made = ast.fix_missing_locations(Replacement(node, other).visit(tree))
        yield Mutant(getattr(node, "lineno", 0), change, ast.unparse(made))


def passes(test: str, directory: str, args: argparse.Namespace) -> bool:
    """Whether a test passes in a directory. All its processes end with it: a mistake can let one
    wait for ever, as at a FIFO. For root the machine's directories are read-only meanwhile, where
    the machine allows it."""
    process = subprocess.Popen(
        apart([sys.executable, "-m", "unittest", "--failfast", test]),
        cwd=directory,
        env={**os.environ, VARIABLE: args.program},
        stdin=subprocess.DEVNULL,
        stdout=subprocess.DEVNULL,
        stderr=subprocess.DEVNULL,
        start_new_session=True,
    )
    try:
        return process.wait(args.seconds) == 0
    except subprocess.TimeoutExpired:
        os.killpg(process.pid, signal.SIGKILL)
        process.wait()
        return False


def is_seen(text: str, args: argparse.Namespace) -> bool:
    """Whether a test fails or hangs with this text in the place of the file."""
    with tempfile.TemporaryDirectory(prefix="mutate-") as directory:
        copy_sources(directory)
        with open(os.path.join(directory, args.file), "w", encoding="utf-8") as target:
            target.write(text)
        return not all(passes(test, directory, args) for test in args.tests)


def main() -> int:
    parser = parser_of("tools.mutate", __doc__)
    add_program(parser)
    parser.add_argument(
        "file", metavar="FILE", help="a module below commands/, from the top of the repository"
    )
    parser.add_argument(
        "tests",
        metavar="TEST",
        nargs="+",
        help="tests of it, as unittest names them: tests.commands.test_mail",
    )
    for name, usual, text in (
        ("--count", 10, "how many mistakes"),
        ("--seed", random.SystemRandom().randrange(10**9), "which ones"),
        ("--jobs", 2, "how many at a time"),
        ("--seconds", 600, "a test that takes longer hangs"),
    ):
        parser.add_argument(name, type=int, default=usual, help=f"{text} (%(default)s)")
    args = parser.parse_args()
    tally = Tally()
    print(f"seed {args.seed}", flush=True)
    with open(os.path.join(TOP, args.file), encoding="utf-8") as source:
        whole = source.read()
    if is_seen(whole, args):
        sys.exit("a test fails without a mistake")
    chosen = list(drawn(whole, args.count, random.Random(args.seed)))
    seen = side_by_side(args.jobs, lambda one: is_seen(one.text, args), chosen)
    for mutant, was_seen in zip(chosen, seen):
        tally.holds(f"{args.file}:{mutant.line}: {mutant.change}", was_seen)
    return tally.status()


if __name__ == "__main__":
    raise SystemExit(main())
