#!/usr/bin/env python3
"""The modules of this Python's standard library as tree texts, for bench/benches/modules.rs.

plain_python.py says what becomes of what a tree text has no room for.  Two folders are filled:
as_read/ has these texts, most of which have faults; accepted/ has them without faults, so that the
Rust original walks them to their end as well.  For that each read with a fault of kind 8 to 10 gets
a `global` line of its name, and each with one of kind 11 to 13 becomes a literal: mostly that of a
function in a function, which the rule does not count as assigned.  A module over a limit is left
out.  The file `list` says what became of each module.

    modules.py FOLDER
"""

import argparse
import platform
import shutil
import sys
import sysconfig
import tokenize
from collections import Counter
from pathlib import Path
from typing import Iterator, NamedTuple

ROOT = Path(__file__).resolve().parent.parent
sys.path.append(str(ROOT / 'compare'))

from document01.faults import Positions, judge
from document01.tree import DEPTH_MAX, LINES_MAX, NAMES_MAX, TEXT_MAX, Node, render
from plain_python import plain_python
from tree_of import Maker, Unfit

# tests, what does not come with Python, and the tables of `encodings`, some 120 that are nearly alike
LEFT_OUT = {'test', 'tests', 'idle_test', 'site-packages', '__pycache__', 'encodings'}
DEEPEST_RECURSION = 20000


class Module(NamedTuple):
    """A module as a tree text, as it was read and without faults."""

    as_read: bytes
    accepted: bytes
    globals: int            # how many names got a `global` line
    literals: int           # how many reads became literals


class OverLimit(Exception):
    """No text within the limits; says which one is passed."""


def sources() -> Iterator[tuple[str, Path]]:
    """The modules of the standard library, by name."""
    folder = Path(sysconfig.get_paths()['stdlib'])
    for path in sorted(folder.rglob('*.py')):
        parts = path.relative_to(folder).with_suffix('').parts
        if not LEFT_OUT.intersection(parts):
            yield '.'.join(parts), path


def depth(node: Node) -> int:
    """How much deeper than a node its deepest line stands."""
    return max((1 + depth(kid) for kid in node.kids), default=0)


def most_params(node: Node) -> int:
    return max([len(node.params), *map(most_params, node.kids)])


def text_of(tree: Node) -> bytes:
    """The text of a tree that is within the limits."""
    text = render(tree)
    for size, limit, what in ((len(text), TEXT_MAX, 'bytes'), (text.count(b'\n') - 1, LINES_MAX, 'lines'),
                              (depth(tree), DEPTH_MAX, 'depth'), (most_params(tree), NAMES_MAX, 'parameters')):
        if size > limit:
            raise OverLimit('over %s %s' % (format(limit, ','), what))
    return text


def number_lines(node: Node, line: int = 1) -> int:
    """Gives each line of a tree its number; answers with the last."""
    node.line = node.last = line
    for kid in node.kids:
        node.last = number_lines(kid, node.last + 1)
    return node.last


def repaired(tree: Node) -> tuple[list[str], int]:
    """Takes away the faults of a tree's reads: the names to be bound before, and how many reads became
    literals."""
    names: dict[str, None] = {}
    literals = 0
    number_lines(tree)
    for one in Positions(tree).reads:
        kind = judge(one)
        if kind in (8, 9, 10):
            names[one.node.name] = None
        elif kind is not None:
            one.node.word, one.node.name = 'lit', ''
            literals += 1
    return list(names), literals


def module(path: Path) -> Module:
    with tokenize.open(path) as file:
        source = file.read()
    body = Maker(source).block(plain_python(source))
    tree = Node('tree', counts=[0, len(body)], kids=body)
    as_read = text_of(tree)
    names, literals = repaired(tree)
    tree.counts[0] = len(names)
    tree.kids[:0] = [Node('global', name) for name in names]
    return Module(as_read, text_of(tree), len(names), literals)


def made_of(path: Path) -> Module | str:
    """A module, or why it is left out."""
    try:
        return module(path)
    except Unfit as error:
        return str(error).partition(' in line')[0]
    except OverLimit as error:
        return str(error)


def write(folder: Path, name: str, made: Module) -> None:
    (folder / 'as_read' / name).write_bytes(made.as_read)
    (folder / 'accepted' / name).write_bytes(made.accepted)


def listed(name: str, made: Module | str) -> str:
    """The line of a module in the list."""
    if isinstance(made, str):
        return '%s: left out, %s\n' % (name, made)
    lines = made.accepted.count(b'\n') - 1
    return '%s: %d lines, %d bytes, %d globals, %d literals\n' % (
        name, lines, len(made.accepted), made.globals, made.literals)


def summary(all_made: list[Module | str]) -> str:
    """How many modules there are, why others are not, and what took their faults away."""
    taken = [made for made in all_made if isinstance(made, Module)]
    why_not = Counter(made for made in all_made if isinstance(made, str))
    over = sum(number for why, number in why_not.items() if why.startswith('over'))
    return '\n'.join((
        'Python %s: %d modules of the standard library, %d turned into trees, %d within the limits' % (
            platform.python_version(), len(all_made), len(taken) + over, len(taken)),
        'left out: ' + ', '.join('%d %s' % (number, why) for why, number in sorted(why_not.items())),
        '%d names got a global line; %d reads in %d modules became literals' % (
            sum(made.globals for made in taken), sum(made.literals for made in taken),
            sum(made.literals > 0 for made in taken))))


def main() -> None:
    parser = argparse.ArgumentParser(description=__doc__,
                                     formatter_class=argparse.RawDescriptionHelpFormatter)
    parser.add_argument('folder', metavar='FOLDER', type=Path, help='is emptied first')
    folder: Path = parser.parse_args().folder
    sys.setrecursionlimit(DEEPEST_RECURSION)
    for kind in ('as_read', 'accepted'):
        shutil.rmtree(folder / kind, ignore_errors=True)
        (folder / kind).mkdir(parents=True)
    all_made = {name: made_of(path) for name, path in sources()}
    for name, made in all_made.items():
        if isinstance(made, Module):
            write(folder, name, made)
    (folder / 'list').write_text(''.join(map(listed, all_made, all_made.values())))
    print(summary(list(all_made.values())))


if __name__ == '__main__':
    main()
