"""All faults of a tree, by where its bindings and reads stand."""

from typing import Literal, NamedTuple

from .kinds import BUILTINS, in_words
from .tree import Node


class Record(NamedTuple):
    """The seven numbers of a fault; an absent name is 0, 0."""

    kind: int
    start: int
    end: int
    name_at: int = 0
    name_length: int = 0
    class_at: int = 0
    class_length: int = 0


class Fault(NamedTuple):
    kind: int
    place: int              # the line of its place
    read: int               # the line of its read, 0 if it has none
    record: Record
    message: bytes


class Binding(NamedTuple):
    position: int
    how: Literal['before', 'param', 'for', 'target', 'def', 'class']


class Block:
    """The module, or a visited def, method or lambda."""

    def __init__(self, node: Node, around: 'Block | None') -> None:
        self.node = node
        self.around = around
        self.bindings: dict[str, list[Binding]] = {}
        for name in node.params:
            self.bind(name, Binding(2 * node.line, 'param'))

    def bind(self, name: str, binding: Binding) -> None:
        self.bindings.setdefault(name, []).append(binding)


class Read(NamedTuple):
    node: Node
    block: Block
    call: Node | None       # the call whose callee it is


class Positions:
    """One pass over the visited lines: bindings, reads, and faults 14 and 15.

    Line n has position 2n, and 2n + 1 lies between it and the next line."""

    def __init__(self, tree: Node) -> None:
        self.reads: list[Read] = []
        self.faults: list[Fault] = []
        module = Block(tree, None)
        for name in BUILTINS:
            module.bind(name, Binding(-1, 'before'))
        for kid in tree.kids:
            if kid.word == 'global':
                module.bind(kid.name, Binding(-1, 'before'))
            else:
                self.plain(kid, module)

    def plain(self, node: Node, block: Block, call: Node | None = None) -> None:
        """A visited line that is not in target position."""
        word, kids = node.word, node.kids
        if word == 'var':
            self.reads.append(Read(node, block, call))
        elif word == 'assign':
            self.plain(kids[0], block)
            self.target(kids[1], block)
        elif word == 'for':
            self.plain(kids[0], block)
            block.bind(node.name, Binding(2 * kids[0].last + 1, 'for'))
            for kid in kids[1:]:
                self.plain(kid, block)
        elif word == 'def':
            block.bind(node.name, Binding(2 * node.line, 'def'))
            self.inside(node, block)
        elif word == 'lambda':
            self.inside(node, block)
        elif word == 'class':
            block.bind(node.name, Binding(2 * node.line, 'class'))
            if home(block).node.word == 'tree':
                for kid in kids:
                    if kid.word == 'method':
                        self.method(kid, node, block)
        elif word == 'call':
            self.plain(kids[0], block, node)
            for kid in kids[1:]:
                self.plain(kid, block)
        else:
            for kid in kids:
                self.plain(kid, block)

    def inside(self, node: Node, around: Block) -> None:
        """What stands in a def, method or lambda."""
        block = Block(node, around)
        for kid in node.kids:
            self.plain(kid, block)

    def method(self, node: Node, owner: Node, around: Block) -> None:
        """A visited method of a class, its owner."""
        if node.params[:1] != ['self']:
            self.faults.append(Fault(
                15, node.line, 0,
                Record(15, owner.start, owner.end, node.name_at, len(node.name),
                       owner.name_at, len(owner.name)),
                in_words(15, node.name, owner.name)))
        self.inside(node, around)

    def target(self, node: Node, block: Block) -> None:
        """A visited line in target position."""
        if node.word == 'var':
            block.bind(node.name, Binding(2 * node.line, 'target'))
        elif node.word == 'tuple':
            for kid in node.kids:
                self.target(kid, block)
        elif node.word in ('get', 'index'):
            self.plain(node, block)
        else:
            self.faults.append(Fault(
                14, node.line, 0, Record(14, node.start, node.end), in_words(14)))


def home(block: Block) -> Block:
    """The innermost block around that is no lambda."""
    while block.node.word == 'lambda' and block.around is not None:
        block = block.around
    return block


def lambdas(block: Block) -> list[Block]:
    """The lambda blocks between a line of this block and its home, inner first."""
    found = []
    while block.node.word == 'lambda' and block.around is not None:
        found.append(block)
        block = block.around
    return found


def in_view(name: str, position: int, block: Block | None) -> bool:
    """Whether a binding of the name stands earlier, in the block or in one around it."""
    while block is not None:
        if any(b.position < position for b in block.bindings.get(name, ())):
            return True
        block = block.around
    return False


def assigned(name: str, position: int, block: Block) -> bool:
    """Whether a parameter, for or target of the block binds the name earlier."""
    return any(b.position < position and b.how in ('param', 'for', 'target')
               for b in block.bindings.get(name, ()))


def judge(one: Read) -> int | None:
    """The kind of the fault of a Read, or None."""
    name, position = one.node.name, 2 * one.node.line
    between = lambdas(one.block)
    at_home = home(one.block)
    if any(name in block.node.params for block in between):
        return None
    if at_home.node.word == 'def' and name in at_home.bindings:
        if assigned(name, position, at_home):
            return None
        return 13 if between else 12 if one.call else 11
    if in_view(name, position, one.block):
        return None
    if between and at_home.node.word == 'tree':
        return 10
    return 9 if one.call else 8


def faults(tree: Node) -> list[Fault]:
    """All faults, by line of place, then by line of the read."""
    positions = Positions(tree)
    found = positions.faults
    listed: set[tuple[int, str]] = set()    # of 10 and 13: the lambda's line and the name
    for one in positions.reads:             # in the order of their lines
        kind = judge(one)
        if kind is None:
            continue
        node = place = one.node
        if kind in (10, 13):
            place = lambdas(one.block)[-1].node
            if (place.line, node.name) in listed:
                continue
            listed.add((place.line, node.name))
        elif kind in (9, 12) and one.call is not None:
            place = one.call
        found.append(Fault(
            kind, place.line, node.line,
            Record(kind, place.start, place.end, node.name_at, len(node.name)),
            in_words(kind, node.name)))
    return sorted(found, key=lambda fault: (fault.place, fault.read))
