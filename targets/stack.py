#!/usr/bin/env python3
"""An upper bound for the stack of each call, computed from the machine code. Python 3.11, standard library only.

    targets/stack.py MACHINE FILE    of an object or an archive; MACHINE: x86-64, aarch64, arm, riscv or wasm32

How deep each function goes, and how deep it is at each call, is read from its instructions (machine.py). The walk over
the tree is the one recursion. Which of its functions call each other is read from its source, where HEADS are entered
once for each level of the tree. A call in the machine code stands for a way through the source, with what was inlined
on it: it takes as many levels as the way with the fewest heads, at least. The bound is that of the deepest chain of
calls that takes no more levels than a tree has.

memcpy, memmove and memset are the maker's: their stack comes on top.
"""

import re
import sys
from functools import cache
from pathlib import Path

from instructions import STEPS, Unknown
from machine import Function, disassembled, functions

ROOT = Path(__file__).resolve().parent.parent

# The recursion. A head is called for one row of the tree, and what it calls in turn is for rows below that row: so the
# rows of the heads that are on the stack lie one below the other, and a tree has no more than LEVELS such rows, since
# read_tree refuses a deeper one. That every way round goes through a head is checked.
WALK = 'walk_tree'
HEADS = ('stmt', 'expr')
LEVELS = int(re.findall(r'^deepest = (\d+)$', (ROOT / 'crates/spec_text/specs/Reading.antt').read_text(), re.M)[0])

# A list of one row, which the caller has found to be a statement's: the list calls the function for that row, and no other.
ONE_ROW = {('line', 'stmts'): 'stmt'}

# What the maker links.
MEMORY = ('memcpy', 'memmove', 'memset')

Chain = tuple[tuple[str, int], ...]


def named_stack() -> int:
    """The bytes of stack that the header names, for x86-64."""
    found = re.search(r'#define SERDUZHAP_STACK (\d+)', (ROOT / 'include' / 'serduzhap.h').read_text())
    return int(found[1]) if found else 0


# ---- the walk's source

def source_calls() -> dict[str, set[str]]:
    """The functions of the walk's source, and which of them each calls."""
    files = sorted((ROOT / 'crates' / WALK / 'src').glob('**/*.rt'))
    text = re.sub(r'//.*', '', '\n'.join(file.read_text() for file in files))
    found = re.findall(r'^( *)(?:pub )?fn (\w+)\b.*?^\1\{$(.*?)^\1\}$', text, re.M | re.S)
    bodies = {name: body for _, name, body in found}
    if len(bodies) != len(re.findall(r'\bfn ', text)):
        raise Unknown('%s: a function that is not laid out as the others' % WALK)
    if lost := set(HEADS) - set(bodies):
        raise Unknown('%s has no %s' % (WALK, ', '.join(sorted(lost))))
    for (name, list_of), one in ONE_ROW.items():
        if not re.search(r'\b%s\(' % list_of, bodies[name]):
            raise Unknown('%s: %s calls no %s' % (WALK, name, list_of))
        bodies[name] = re.sub(r'\b%s\(' % list_of, one + '(', bodies[name])
    return {name: {other for other in bodies if re.search(r'\b%s\(' % other, body)}
            for name, body in bodies.items()}


def source_name(name: str) -> str:
    """The function of the walk's source that one of the machine code is made from; '' if it is of another crate."""
    match = re.fullmatch(r'%s::(?:\w+::)*(\w+?)(?:\.[\w.]+)?' % WALK, name)
    return match[1] if match else ''


def fewest_heads(calls: dict[str, set[str]], start: str) -> dict[str, int]:
    """From a function to each that it calls, directly or not: the fewest heads that are entered on a way there."""
    fewest: dict[str, int] = {}
    todo = [(0, start)]
    while todo:
        taken, name = todo.pop(0)
        for other in calls[name]:
            cost = taken + (other in HEADS)
            if cost < fewest.get(other, cost + 1):
                fewest[other] = cost
                todo.append((cost, other))
    return fewest


def without_head(levels: dict[str, dict[str, int]]) -> list[str]:
    """Functions that call themselves with no head on the way."""
    return [name for name, fewest in levels.items() if fewest.get(name) == 0]


# ---- bounds

class Bounds:
    """The bounds of the functions of an object."""

    def __init__(self, found: dict[str, Function]) -> None:
        self.functions = found
        source = source_calls()
        self.levels = {name: fewest_heads(source, name) for name in source}
        if lost := without_head(self.levels):
            raise Unknown('%s: no head on a way round through %s' % (WALK, ', '.join(lost)))
        self.reaches = {name: self.reached_from(name) for name in found}

    def reached_from(self, start: str) -> set[str]:
        """All functions that one calls, directly or not."""
        reached: set[str] = set()
        todo = [start]
        while todo:
            for name, _ in self.functions[todo.pop()].calls:
                if name in reached or name in MEMORY:
                    continue
                if name not in self.functions:
                    raise Unknown('%s calls %s, which is not in the object' % (start, name))
                reached.add(name)
                todo.append(name)
        return reached

    def together(self, name: str, other: str) -> bool:
        """Whether each of two functions calls the other, directly or not."""
        return name in self.reaches[other] and other in self.reaches[name]

    def levels_of(self, caller: str, called: str) -> int:
        """How many levels of the tree a call goes down, at least."""
        if not self.together(called, called):
            return 0
        if not source_name(called):
            raise Unknown('%s calls itself, and is no function of %s' % (called, WALK))
        if not self.together(caller, called):
            return int(source_name(called) in HEADS)
        if source_name(called) not in self.levels.get(source_name(caller), {}):
            raise Unknown('%s calls %s, and not in the source' % (caller, called))
        return self.levels[source_name(caller)][source_name(called)]

    @cache
    def chain(self, name: str, levels: int = LEVELS) -> Chain:
        """The deepest chain of calls: each function with its depth where it calls the next; the last at its deepest."""
        function = self.functions[name]
        best: Chain = ((name, function.deepest),)
        for called, depth in sorted(function.calls):
            if called not in MEMORY and (left := levels - self.levels_of(name, called)) >= 0:
                best = max(best, ((name, depth),) + self.chain(called, left), key=total)
        return best

    def bound(self, name: str) -> int:
        return total(self.chain(name))

    def level(self, name: str) -> int:
        """What the last level of the tree adds to a bound."""
        return self.bound(name) - total(self.chain(name, LEVELS - 1))

    def report(self, names: list[str]) -> str:
        """The bounds, the frames, the recursion and the deepest chain, in words."""
        lines = ['stack of the calls:']
        lines += ['  %-28s %7d, a level of the tree %d' % (name, self.bound(name), self.level(name)) for name in names]
        lines.append('deepest of each function, without what it calls:')
        for one in sorted(self.functions.values(), key=lambda one: -one.deepest):
            again = '  in the recursion' if self.together(one.name, one.name) else ''
            lines.append('  %-40s %5d%s' % (one.name, one.deepest, again))
        lines.append('the deepest chain of calls:')
        return '\n'.join(lines + ['  ' + line for line in folded(self.chain(names[0]))])


def total(chain: Chain) -> int:
    return sum(depth for _, depth in chain)


def folded(chain: Chain) -> list[str]:
    """A chain in words, with what comes again and again once."""
    words = ['%s %d' % one for one in chain]
    for width in range(1, 8):
        for start in range(len(words)):
            part, times = words[start:start + width], 1
            while words[start + times * width:start + (times + 1) * width] == part:
                times += 1
            if times > 2:
                again = '%d times (%s)' % (times, ', '.join(part))
                return words[:start] + [again] + words[start + times * width:]
    return words


def main() -> int:
    if len(sys.argv) != 3 or sys.argv[1] not in [*STEPS, 'wasm32']:
        print(__doc__)
        return 2
    try:
        bounds = Bounds(functions(sys.argv[1], disassembled(Path(sys.argv[2]))))
        print(bounds.report([name for name in sorted(bounds.functions) if '::' not in name]))
    except Unknown as why:
        print('FAILED: %s' % why, file=sys.stderr)
        return 1
    return 0


if __name__ == '__main__':
    sys.exit(main())
