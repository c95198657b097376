"""Random trees over few names, so that bindings and reads often meet.

What is drawn, and in which order, may not change: the texts that the gate replays are made
from it."""

from random import Random
from typing import NamedTuple

from .tree import Node

STATEMENTS = ('def', 'assign', 'if', 'while', 'for', 'return', 'expr', 'class', 'pass')
EXPRESSIONS = ('lit', 'var', 'un', 'bin', 'index', 'call', 'get', 'list', 'tuple', 'set',
               'treeset', 'dict', 'lambda')
POOLS = (['x'], ['x', 'y'], ['x', 'y'], ['x', 'y', 'z'], ['x', 'xx', 'print'],
         ['x', 'self', 'len'], ['f', 'g', 'self', 'set', 'x'])


class Profile(NamedTuple):
    """The weights of STATEMENTS and of EXPRESSIONS."""

    statements: tuple[int, ...]
    expressions: tuple[int, ...]


ALL_ALIKE = Profile((5, 6, 2, 1, 2, 1, 6, 3, 1), (3, 9, 1, 3, 2, 5, 2, 1, 1, 1, 1, 1, 5))
LAMBDAS_IN_DEFS = Profile((8, 5, 1, 1, 1, 1, 9, 1, 0), (1, 12, 1, 9, 1, 4, 1, 1, 1, 0, 0, 1, 9))
TARGETS = Profile((4, 14, 1, 1, 2, 1, 4, 2, 0), (2, 9, 1, 2, 4, 3, 4, 1, 6, 1, 1, 1, 2))


class Grower:
    """Grows a tree of about so many lines."""

    def __init__(self, rng: Random, lines: int) -> None:
        self.rng = rng
        self.left = lines
        self.pool = rng.choice(POOLS)
        self.profile = rng.choice((ALL_ALIKE, LAMBDAS_IN_DEFS, TARGETS))
        self.spans = rng.randrange(3)

    def tree(self) -> Node:
        globals_ = [Node('global', self.name())
                    for _ in range(self.rng.choice((0, 0, 0, 0, 1, 2)))]
        stmts = []
        if self.rng.random() < 0.2:
            self.pool = ['x', 'y', 'z', 'q']
            self.profile = LAMBDAS_IN_DEFS
            stmts.append(self.captures())
        while self.left > 0:
            stmts.append(self.stmt(0))
        tree = Node('tree', counts=[len(globals_), len(stmts)], kids=globals_ + stmts)
        self.number(tree)
        return tree

    def number(self, tree: Node) -> None:
        """Spans that tell lines apart, or small ones that do not, or any."""
        rng, line = self.rng, 0
        todo = [tree]
        while todo:
            node = todo.pop()
            line += 1
            if self.spans == 0:
                node.start, node.end = line, line + 100
            elif self.spans == 1:
                node.start, node.end = rng.randrange(2), rng.randrange(2)
            else:
                node.start = rng.choice((0, 9, 10, 4294967295, rng.getrandbits(32)))
                node.end = rng.choice((0, 99, 2147483648, rng.getrandbits(32)))
            todo.extend(reversed(node.kids))

    # ---- names and lines

    def name(self) -> str:
        return self.rng.choice(self.pool)

    def params(self, most: int = 3) -> list[str]:
        return [self.name() for _ in range(self.rng.choice((0, 0, 1, 1, 2, most)))]

    def make(self, word: str, name: str = '') -> Node:
        self.left -= 1
        return Node(word, name)

    # ---- statements

    def captures(self) -> Node:
        """A def that reads names under lambdas and binds some of them late."""
        rng = self.rng
        body: list[Node] = []
        for _ in range(rng.choice((1, 1, 2))):
            body.append(self.read_in_lambda())
        for _ in range(rng.choice((1, 2))):
            at = rng.choice((0, len(body), len(body)))
            body.insert(at, self.plain_assign())
        node = self.def_around(body)
        return self.def_around([node]) if rng.random() < 0.3 else node

    def read_in_lambda(self) -> Node:
        params = self.params(1)
        inner = self.expr(2)
        function = self.make('lambda')
        function.params, function.kids = params, [inner]
        stmt = self.make('expr')
        stmt.kids = [function]
        return stmt

    def plain_assign(self) -> Node:
        value = self.expr(8)
        target = self.make('var', self.name())
        stmt = self.make('assign')
        stmt.kids = [value, target]
        return stmt

    def def_around(self, body: list[Node]) -> Node:
        node = self.make('def', self.name())
        node.counts, node.params, node.kids = [len(body)], self.params(1), body
        return node

    def body(self, depth: int) -> list[Node]:
        return [self.stmt(depth) for _ in range(self.rng.choice((0, 1, 1, 2, 2, 3)))
                if self.left > 0]

    def stmt(self, depth: int) -> Node:
        rng = self.rng
        if self.left <= 1 or depth > 6:
            return self.make(rng.choice(('pass', 'break', 'continue')))
        word = rng.choices(STATEMENTS, self.profile.statements)[0]
        deeper = depth + 1
        node = self.make(word)
        if word == 'def':
            node.name, node.params = self.name(), self.params()
            node.kids = self.body(deeper)
            node.counts = [len(node.kids)]
        elif word == 'assign':
            node.kids = [self.expr(deeper), self.target(deeper)]
        elif word == 'if':
            self.fill_if(node, deeper)
        elif word in ('while', 'for'):
            if word == 'for':
                node.name = self.name()
            node.kids = [self.expr(deeper)] + self.body(deeper)
            node.counts = [len(node.kids) - 1]
        elif word in ('return', 'expr'):
            node.kids = [self.expr(deeper)]
        elif word == 'class':
            self.fill_class(node, deeper)
        else:
            node.word = rng.choice(('pass', 'break', 'continue'))
        return node

    def fill_if(self, node: Node, depth: int) -> None:
        then = self.body(depth)
        elifs = []
        for _ in range(self.rng.choice((0, 0, 1, 2))):
            branch = self.make('elif')
            branch.kids = [self.expr(depth + 1)] + self.body(depth + 1)
            branch.counts = [len(branch.kids) - 1]
            elifs.append(branch)
        other = self.body(depth) if self.rng.random() < 0.4 else []
        node.kids = [self.expr(depth)] + then + elifs + other
        node.counts = [len(then), len(elifs), len(other)]

    def fill_class(self, node: Node, depth: int) -> None:
        node.name = self.name()
        methods, attrs = [], []
        for _ in range(self.rng.choice((0, 1, 1, 2))):
            method = self.make('method', self.name())
            method.params = self.params()
            if self.rng.random() < 0.7:
                method.params.insert(0, 'self')
            method.kids = self.body(depth + 1)
            method.counts = [len(method.kids)]
            methods.append(method)
        for _ in range(self.rng.choice((0, 0, 1))):
            name, value = self.name(), self.expr(depth + 1)
            attr = self.make('attr', name)
            attr.kids = [value]
            attrs.append(attr)
        node.kids = methods + attrs
        node.counts = [len(methods), len(attrs)]

    # ---- targets and expressions

    def target(self, depth: int) -> Node:
        rng = self.rng
        if self.left <= 1 or depth > 8:
            return self.make('var', self.name())
        choice = rng.random()
        if choice < 0.5:
            return self.make('var', self.name())
        if choice < 0.75:
            node = self.make('tuple')
            node.kids = [self.target(depth + 1)
                         for _ in range(rng.choice((0, 1, 2, 2, 3)))]
            node.counts = [len(node.kids)]
            return node
        return self.expr(depth)

    def expr(self, depth: int) -> Node:
        rng = self.rng
        if self.left <= 1 or depth > 9:
            name = self.name()              # drawn for a lit as well
            word = rng.choice(('lit', 'var'))
            return self.make(word, name if word == 'var' else '')
        word = rng.choices(EXPRESSIONS, self.profile.expressions)[0]
        node = self.make(word)
        deeper = depth + 1
        if word in ('var', 'get'):
            node.name = self.name()
        if word in ('un', 'get', 'lambda'):
            node.kids = [self.expr(deeper)]
        elif word in ('bin', 'index'):
            node.kids = [self.expr(deeper), self.expr(deeper)]
        elif word == 'call':
            callee = (self.make('var', self.name()) if rng.random() < 0.7
                      else self.expr(deeper))
            args = [self.expr(deeper) for _ in range(rng.choice((0, 0, 1, 2)))]
            node.kids, node.counts = [callee] + args, [len(args)]
        elif word in ('list', 'tuple', 'set', 'treeset'):
            node.kids = [self.expr(deeper) for _ in range(rng.choice((0, 1, 2)))]
            node.counts = [len(node.kids)]
        elif word == 'dict':
            pairs = rng.choice((0, 1, 2))
            node.kids = [self.expr(deeper) for _ in range(2 * pairs)]
            node.counts = [pairs]
        if word == 'lambda':
            node.params = self.params(2)
        return node


def random_tree(rng: Random, lines: int) -> Node:
    """A random tree of about so many lines."""
    return Grower(rng, lines).tree()
