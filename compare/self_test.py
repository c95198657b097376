#!/usr/bin/env python3
"""Tests the independent reading of document 01 (document01/): against the answers that document 01
gives, and its two ways to find the first fault against one another."""

import argparse
import random
import sys
from collections import Counter
from typing import NamedTuple

from document01.faults import Fault, faults
from document01.random_trees import random_tree
from document01.reader import Refusal, read
from document01.rust_walk import FirstError, rust_walk
from document01.scripts import SCRIPTS, Found, Script, calls
from document01.tree import Node, render


def first_of(found: list[Fault]) -> FirstError | None:
    """The first fault as the Rust walk would give it."""
    if not found:
        return None
    return FirstError(*found[0].record[:3], found[0].message)


# ------------------------------------------------------------------- the scripts

def answer(script: Script) -> list[Found] | Refusal:
    """All faults of a script, or its refusal."""
    tree = read(script.text)
    if isinstance(tree, Refusal):
        return tree
    found = []
    for fault in faults(tree):
        kind, start, end, at, length, *_ = fault.record
        found.append(Found(kind, start, end, script.text[at:at + length].decode('ascii')))
    return found


def failures() -> list[str]:
    """The scripts and calls with another answer than the one to expect, in words."""
    found = []
    for script in SCRIPTS:
        tree = read(script.text)
        if isinstance(tree, Node) and rust_walk(tree) != first_of(faults(tree)):
            found.append('%s: the first fault is %s, but the Rust walk finds %s'
                         % (script.title, first_of(faults(tree)), rust_walk(tree)))
        if answer(script) != script.expected:
            found.append('%s: expected %r, found %r'
                         % (script.title, script.expected, answer(script)))
    for call in calls():
        if call.found != call.expected:
            found.append('%s: expected %r, found %r' % (call.title, call.expected, call.found))
    return found


def test_scripts() -> bool:
    found = failures()
    for failure in found:
        print('WRONG', failure)
    print('%d texts, %d vectors, %d wrong' % (len(SCRIPTS), len(list(calls())), len(found)))
    return not found


# -------------------------------------------------------------- the random trees

class Difference(NamedTuple):
    text: bytes
    walk: FirstError | None
    found: list[Fault]


class Comparison:
    """rust_walk against the first of faults."""

    def __init__(self) -> None:
        self.compared = 0
        self.kinds: Counter[int] = Counter()        # of the first faults
        self.differences: list[Difference] = []

    def compare(self, text: bytes) -> None:
        """Compares, repairs the first fault and compares again, until there is none."""
        while True:
            self.compared += 1
            tree = read(text)
            assert isinstance(tree, Node), tree
            walk, found = rust_walk(tree), faults(tree)
            if walk != first_of(found):
                self.differences.append(Difference(text, walk, found))
                return
            if not found:
                return
            self.kinds[found[0].kind] += 1
            repair(tree, found[0])
            text = render(tree)


def repair(tree: Node, fault: Fault) -> None:
    """Change the tree so that this fault goes away, the lines stay as they are."""
    todo = [tree]
    while todo:
        node = todo.pop()
        todo.extend(node.kids)
        if node.line == (fault.read or fault.place):
            if fault.kind == 15:
                node.params = ['self'] + node.params[1:]
            elif fault.kind == 14:
                # a tuple of the refused line's children, or an empty one
                node.word, node.params, node.name = 'tuple', [], ''
                node.counts = [len(node.kids)]
            else:
                node.word, node.name = 'lit', ''
            return
    raise AssertionError('no such line')


def test_random_trees(count: int, seed: int) -> bool:
    rng = random.Random(seed)
    comparison = Comparison()
    for _ in range(count):
        comparison.compare(render(random_tree(rng, rng.randrange(2, 30))))
    print('seed %d: %d trees, %d comparisons, kinds of first faults %s'
          % (seed, count, comparison.compared, dict(sorted(comparison.kinds.items()))))
    if comparison.differences:
        print('DIFFERENCE', min(comparison.differences, key=lambda one: len(one.text)))
    return not comparison.differences


def main() -> int:
    parser = argparse.ArgumentParser(description=__doc__)
    commands = parser.add_subparsers(dest='command', required=True)
    commands.add_parser('scripts', help="document 01's scripts a to l, its table of refusals and "
                        'faults, and some answers of the calls, each against the answer to expect')
    trees = commands.add_parser('random-trees', help='the Rust walk against the faults by position '
                                'over random trees, each repaired fault by fault')
    trees.add_argument('count', metavar='COUNT', type=int, nargs='?', default=200000,
                       help='how many trees (%(default)s)')
    trees.add_argument('seed', metavar='SEED', type=int, nargs='?', default=1,
                       help='of the draws (%(default)s)')
    given = parser.parse_args()
    if given.command == 'scripts':
        return 0 if test_scripts() else 1
    return 0 if test_random_trees(given.count, given.seed) else 1


if __name__ == '__main__':
    sys.exit(main())
