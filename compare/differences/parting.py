"""Under which sections of docs/DIFFERENCES.md the reads come that part Python from the Rust."""

from typing import Iterator

from document01.faults import Positions, Read, home, judge
from document01.reader import read
from document01.tree import Node
from tree_of import tree_of

from .marked_run import Run
from .sections import SAME

Above = dict[int, tuple[Node, ...]]     # the nodes above each line, the outermost first


def lines_above(node: Node, above: tuple[Node, ...] = ()) -> Iterator[tuple[int, tuple[Node, ...]]]:
    """Each line with the nodes above it."""
    yield node.line, above
    for kid in node.kids:
        yield from lines_above(kid, (*above, node))


class Parting:
    """A read that parts the two."""

    def __init__(self, one: Read, above: Above, run: Run) -> None:
        self.one, self.above, self.run = one, above, run
        self.name, self.position = one.node.name, 2 * one.node.line
        self.block = one.block              # in the end the block where Python looks the name up
        while self.block.around and self.name not in self.block.bindings:
            self.block = self.block.around
        self.found = self.block.bindings.get(self.name, [])
        self.early = [binding for binding in self.found if binding.position < self.position]
        self.classes = [node.name for node in above[one.node.line] if node.word == 'class']

    def branches(self, position: int) -> list[Node]:
        """The ifs and loops between what stands at a position and the block."""
        nodes = self.above[position // 2]
        inside = nodes[nodes.index(self.block.node) + 1:]
        return [node for node in inside if node.word in ('if', 'while', 'for')]

    def in_one_loop(self) -> bool:
        """Whether a loop is around both the read and a binding of its name."""
        loops = [node for node in self.branches(self.position) if node.word != 'if']
        return any(node in loops for binding in self.found
                   for node in self.branches(binding.position))

    def section(self) -> str | None:
        """The sections that it comes under, or None."""
        if self.one.node.start not in self.run.made:
            return '35 to 44'
        if self.classes and self.name in ('__x', '_C__x'):
            return '49, 50'
        if self.block.around is None and self.name in ('list', 'treeset'):
            return '45, 46'
        kind = judge(self.one)
        return self.without_fault() if kind is None else self.with_fault(kind)

    def without_fault(self) -> str | None:
        if self.found and not self.early:
            return '27, 28' if self.block is home(self.one.block) else '31'
        if all(self.branches(binding.position) for binding in self.early):
            return '16 to 24'
        return '26' if self.name in self.classes else None

    def with_fault(self, kind: int) -> str | None:
        if self.one.node.start == self.run.failed:
            unbound = (kind in (8, 9) and home(self.one.block).node.word == 'method'
                       and self.run.error == 'UnboundLocalError')
            return '30' if kind == 13 else '29' if unbound else None
        if kind > 10 and any(binding.how in ('def', 'class') for binding in self.early):
            return '1 to 4'
        if self.found and self.block is not self.one.block:
            return '5 to 13'
        return '14, 15' if self.in_one_loop() else None


def parts(one: Read, run: Run) -> bool:
    """Whether Python and the Rust part at a read."""
    kind, start = judge(one), one.node.start
    if start == run.failed:
        return str(kind) not in SAME[run.error]
    return kind is not None and (start in run.made or run.failed is None)


def sections(script: str, run: Run) -> set[str | None]:
    """The sections under which a run parts Python from the Rust; None: there is none for a read."""
    tree = read(tree_of(script))
    assert isinstance(tree, Node), tree
    above, reads = dict(lines_above(tree)), Positions(tree).reads
    found = {Parting(one, above, run).section() for one in reads if parts(one, run)}
    if run.failed not in [None, *(one.node.start for one in reads)]:
        found.add('25, 32 to 34')
    return found
