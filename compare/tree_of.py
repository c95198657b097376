#!/usr/bin/env python3
"""The tree text of a Python script, made with the standard `ast` module.

A span is where the node stands in the script, from its first byte to the byte after its last.
What the tree text cannot hold, such as an import or a default value, raises Unfit, which names
the node and its line.

    tree_of.py [NAME].. < SCRIPT
"""

import argparse
import ast
import sys
from itertools import accumulate
from typing import Iterable, Sequence

from document01.tree import NAME, Node, render

DISPLAYS: dict[type[ast.expr], str] = {ast.List: 'list', ast.Tuple: 'tuple', ast.Set: 'set'}
# fields that have to be empty; a class has no base, a call no keyword argument
EMPTY = ('decorator_list', 'bases', 'keywords', 'returns', 'posonlyargs', 'vararg', 'kwonlyargs',
         'kwarg', 'defaults', 'annotation')

Placed = ast.stmt | ast.expr | ast.arg          # what has a place in the script


class Unfit(ValueError):
    """The tree text cannot hold this node."""


def unfit(node: ast.AST, what: str = '') -> Unfit:
    line = getattr(node, 'lineno', '?')
    return Unfit('no tree text for %s in line %s%s' % (type(node).__name__, line, what))


def plain(node: ast.AST, around: ast.AST | None = None) -> None:
    """Raises Unfit unless all that the tree text has no room for is empty."""
    for field in EMPTY:
        if getattr(node, field, None):
            raise unfit(around or node, ': ' + field)


def name(node: ast.AST, text: str) -> str:
    if not NAME.fullmatch(text.encode('utf-8')):
        raise unfit(node, ': the name %s' % text)
    return text


def params(node: ast.FunctionDef | ast.Lambda) -> list[str]:
    plain(node.args, node)
    found = []
    for arg in node.args.args:
        plain(arg)
        found.append(name(arg, arg.arg))
    return found


class Maker:
    """Makes the lines of a script."""

    def __init__(self, source: str) -> None:
        self.bytes = source.encode('utf-8')
        self.lines = [0, *accumulate(map(len, self.bytes.splitlines(keepends=True)))]

    def start(self, node: Placed) -> int:
        return self.lines[node.lineno - 1] + node.col_offset

    def end(self, node: Placed) -> int:
        assert node.end_lineno is not None and node.end_col_offset is not None
        return self.lines[node.end_lineno - 1] + node.end_col_offset

    def make(self, node: Placed, word: str, kids: Iterable[Node] = (), *, name: str = '',
             counts: Sequence[int] = (), params: Sequence[str] = ()) -> Node:
        return Node(word, name, list(counts), list(params), list(kids),
                    self.start(node), self.end(node))

    # ---- statements

    def block(self, body: list[ast.stmt]) -> list[Node]:
        return [self.stmt(node) for node in body]

    def stmt(self, node: ast.stmt) -> Node:
        plain(node)
        match node:
            case ast.Pass():
                return self.make(node, 'pass')
            case ast.Break():
                return self.make(node, 'break')
            case ast.Continue():
                return self.make(node, 'continue')
            case ast.FunctionDef(body=body):
                return self.make(node, 'def', self.block(body), name=name(node, node.name),
                                 counts=[len(body)], params=params(node))
            case ast.Assign(targets=[target]):
                return self.make(node, 'assign', [self.expr(node.value), self.expr(target)])
            case ast.If():
                return self.branches(node)
            case ast.While(body=body, orelse=[]):
                return self.make(node, 'while', [self.expr(node.test), *self.block(body)],
                                 counts=[len(body)])
            case ast.For(target=ast.Name(id=variable), body=body, orelse=[]):
                return self.make(node, 'for', [self.expr(node.iter), *self.block(body)],
                                 name=name(node, variable), counts=[len(body)])
            case ast.Return(value=ast.expr() as value):
                return self.make(node, 'return', [self.expr(value)])
            case ast.Expr():
                return self.make(node, 'expr', [self.expr(node.value)])
            case ast.ClassDef():
                return self.class_(node)
        raise unfit(node)

    def branches(self, node: ast.If) -> Node:
        """An if with its elif lines: to ast each of these is an if, alone in the else before."""
        kids = [self.expr(node.test), *self.block(node.body)]
        elifs, other = 0, node.orelse
        while (len(other) == 1 and isinstance(branch := other[0], ast.If)
               and self.bytes.startswith(b'elif', self.start(branch))):
            kids.append(Node('elif', counts=[len(branch.body)],
                             kids=[self.expr(branch.test), *self.block(branch.body)]))
            elifs, other = elifs + 1, branch.orelse
        return self.make(node, 'if', kids + self.block(other),
                         counts=[len(node.body), elifs, len(other)])

    def class_(self, node: ast.ClassDef) -> Node:
        """A class; a `pass` in it has no line."""
        methods, attrs = [], []
        for kid in node.body:
            plain(kid)
            match kid:
                case ast.FunctionDef(body=body):
                    methods.append(Node('method', name(kid, kid.name), [len(body)], params(kid),
                                        self.block(body)))
                case ast.Assign(targets=[ast.Name(id=attr)]):
                    attrs.append(Node('attr', name(kid, attr), kids=[self.expr(kid.value)]))
                case ast.Pass():
                    pass
                case _:
                    raise unfit(kid, ', in a class')
        return self.make(node, 'class', methods + attrs, name=name(node, node.name),
                         counts=[len(methods), len(attrs)])

    # ---- expressions

    def expr(self, node: ast.expr) -> Node:
        plain(node)
        match node:
            case ast.Constant():
                return self.make(node, 'lit')
            case ast.Name():
                return self.make(node, 'var', name=name(node, node.id))
            case ast.UnaryOp():
                return self.make(node, 'un', [self.expr(node.operand)])
            case ast.BinOp():
                return self.nested(node, [node.left, node.right])
            case ast.BoolOp():
                return self.nested(node, node.values)
            case ast.Compare():
                return self.nested(node, [node.left, *node.comparators])
            case ast.Call():
                return self.make(node, 'call', map(self.expr, [node.func, *node.args]),
                                 counts=[len(node.args)])
            case ast.Attribute():
                return self.make(node, 'get', [self.expr(node.value)], name=name(node, node.attr))
            case ast.Subscript():
                return self.make(node, 'index', [self.expr(node.value), self.expr(node.slice)])
            case ast.List() | ast.Tuple() | ast.Set():
                return self.make(node, DISPLAYS[type(node)], map(self.expr, node.elts),
                                 counts=[len(node.elts)])
            case ast.Dict():
                return self.dict_(node)
            case ast.Lambda():
                return self.make(node, 'lambda', [self.expr(node.body)], params=params(node))
        raise unfit(node)

    def dict_(self, node: ast.Dict) -> Node:
        """A dict without `**`."""
        kids = []
        for key, value in zip(node.keys, node.values):
            if key is None:
                raise unfit(node)
            kids += [self.expr(key), self.expr(value)]
        return self.make(node, 'dict', kids, counts=[len(node.keys)])

    def nested(self, node: ast.expr, operands: list[ast.expr]) -> Node:
        """`a or b or c` as (a or b) or c; what is inside starts where all starts, and ends with its
        operand."""
        left = self.expr(operands[0])
        for operand in operands[1:]:
            left = self.make(node, 'bin', [left, self.expr(operand)])
            left.end = self.end(operand)
        left.end = self.end(node)
        return left


def tree_of(source: str, globals_: Sequence[str] = ()) -> bytes:
    """The tree text of a script, with a `global` line for each of the names."""
    given = [Node('global', name(ast.Name(text), text)) for text in globals_]
    body = Maker(source).block(ast.parse(source).body)
    return render(Node('tree', counts=[len(given), len(body)], kids=given + body))


def main() -> None:
    parser = argparse.ArgumentParser(description=__doc__,
                                     formatter_class=argparse.RawDescriptionHelpFormatter)
    parser.add_argument('names', metavar='NAME', nargs='*', help='gets a `global` line')
    given = parser.parse_args()
    try:
        text = tree_of(sys.stdin.buffer.read().decode('utf-8'), given.names)
    except (Unfit, SyntaxError) as error:
        sys.exit('tree_of.py: %s' % error)
    sys.stdout.buffer.write(text)


if __name__ == '__main__':
    main()
