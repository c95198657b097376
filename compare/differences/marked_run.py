"""A run of a script by Python, with each read and each call marked."""

import ast
import builtins
from types import FunctionType

from tree_of import Maker


class Run(ast.NodeTransformer):
    """Where the reads stand that were made, and where the one that failed."""

    def __init__(self, script: str) -> None:
        self.start = Maker(script).start
        self.made: set[int] = set()
        self.last: int | None = None        # the read that was made last
        self.failed: int | None = None
        self.error = ''                     # the name of the error that it failed with
        self.left = 60                      # calls that may still be made
        marked = ast.fix_missing_locations(self.visit(ast.parse(script)))
        given = {**vars(builtins), 'due!': self.due, 'call!': self.call}
        try:
            exec(compile(marked, 'script', 'exec'), {'__name__': 'script', '__builtins__': given})
        except NameError as error:
            self.error, self.failed = type(error).__name__, self.last

    def visit_Name(self, node: ast.Name) -> ast.expr:
        """A read becomes `due!(start) or name`."""
        if not isinstance(node.ctx, ast.Load):
            return node
        due = ast.Call(ast.Name('due!', ast.Load()), [ast.Constant(self.start(node))], [])
        return ast.BoolOp(ast.Or(), [due, node])

    def visit_Call(self, node: ast.Call) -> ast.expr:
        """A call becomes `call!(callee, argument..)`."""
        parts = [self.visit(part) for part in (node.func, *node.args)]
        return ast.Call(ast.Name('call!', ast.Load()), parts, [])

    def due(self, start: int) -> None:
        self.made.add(start)
        self.last = start

    def call(self, value: object, *arguments: object) -> object:
        """Calls a function with as many arguments as it takes; of a class, its method m."""
        if isinstance(value, type) and value.__module__ == 'script':
            arguments = (value(), *arguments)
            value = getattr(value, 'm', 0)
        self.left -= 1
        if self.left < 0 or not isinstance(value, FunctionType):
            return 0
        return value(*(*arguments, 0, 0, 0)[:value.__code__.co_argcount])
