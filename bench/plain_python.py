"""Python scripts with nothing in them that a tree text has no room for, for the benchmark alone.

compare/tree_of.py takes no import, default value, `with`, `try` and so on, and hardly a module of
the standard library does without them.  Here each becomes the nearest thing that the tree text has,
so that the sizes, shapes and names of real code are kept:

    decorators, default values, annotations, base classes   dropped
    *args, **kwargs, keyword-only parameters                parameters
    keyword arguments, *x, **x                              arguments, x
    a method without `self`                                 gets it, before its other parameters
    what is no def and no attribute in a class              stands before the class
    import                                                  its names are assigned a literal
    a = b = v, a += v                                       a tuple of targets, a = a + v
    for of several names, its else                          an assignment from one name, after it
    with                                                    assignments, then its body
    try                                                     an if; one for each except; finally
    raise, assert, del                                      a return, a call, an expression
    global, nonlocal                                        pass
    a comprehension                                         map over a lambda, with its conditions
    v if c else w, an f-string, a slice                     binary operators, a tuple, a tuple
    yield, await, x := v                                    a unary operator, the same, v

A `match` is left: tree_of.py raises Unfit for it.
"""

import ast
from typing import TypeVar

Made = TypeVar('Made', bound=ast.AST)
Comprehension = ast.ListComp | ast.SetComp | ast.GeneratorExp | ast.DictComp
EACH = 'each'           # the name of a `for` that has several


def put(old: ast.AST, new: Made) -> Made:
    """A new node, where the old one stood."""
    return ast.fix_missing_locations(ast.copy_location(new, old))


def nothing() -> ast.expr:
    return ast.Constant(None)


def all_of(values: list[ast.expr]) -> ast.expr:
    """The only one, or all of them with operators between."""
    return values[0] if len(values) == 1 else ast.BoolOp(ast.And(), values)


def plain_fields(node: ast.AST) -> None:
    """Empties the fields of a node that a tree text has no room for."""
    match node:
        case ast.FunctionDef() | ast.AsyncFunctionDef():
            node.decorator_list, node.returns = [], None
        case ast.ClassDef():
            node.decorator_list, node.bases, node.keywords = [], [], []
        case ast.arguments():
            rest = [node.vararg, *node.kwonlyargs, node.kwarg]
            node.args = node.posonlyargs + node.args + [arg for arg in rest if arg]
            node.posonlyargs, node.vararg, node.kwonlyargs, node.kwarg = [], None, [], None
            node.defaults, node.kw_defaults = [], []
        case ast.arg():
            node.annotation = None
        case ast.Call():
            node.args = node.args + [keyword.value for keyword in node.keywords]
            node.keywords = []
        case ast.Dict():
            node.keys = [key or put(node, nothing()) for key in node.keys]
        case ast.Return(value=None):
            node.value = put(node, nothing())


class Plain(ast.NodeTransformer):
    """Puts other nodes in the place of those that a tree text has no line for."""

    # ---- statements; one may become several

    def visit_Import(self, node: ast.Import | ast.ImportFrom) -> list[ast.stmt]:
        names = [(alias.asname or alias.name).partition('.')[0] for alias in node.names]
        return [put(node, ast.Assign([ast.Name(name)], nothing())) for name in names if name != '*']

    visit_ImportFrom = visit_Import

    def visit_Assign(self, node: ast.Assign) -> ast.Assign:
        self.generic_visit(node)
        if len(node.targets) > 1:
            node.targets = [put(node, ast.Tuple(node.targets))]
        return node

    def visit_AugAssign(self, node: ast.AugAssign) -> ast.Assign:
        self.generic_visit(node)
        return put(node, ast.Assign([node.target], ast.BinOp(node.target, node.op, node.value)))

    def visit_AnnAssign(self, node: ast.AnnAssign) -> ast.stmt:
        self.generic_visit(node)
        if node.value is None:
            return put(node, ast.Pass())
        return put(node, ast.Assign([node.target], node.value))

    def visit_Delete(self, node: ast.Delete) -> ast.Expr:
        self.generic_visit(node)
        return put(node, ast.Expr(all_of(node.targets)))

    def visit_Assert(self, node: ast.Assert) -> ast.Expr:
        self.generic_visit(node)
        values = [node.test, node.msg] if node.msg else [node.test]
        return put(node, ast.Expr(ast.Call(ast.Name('assert'), values, [])))

    def visit_Raise(self, node: ast.Raise) -> ast.Return:
        self.generic_visit(node)
        values = [value for value in (node.exc, node.cause) if value]
        return put(node, ast.Return(all_of(values or [nothing()])))

    def visit_Global(self, node: ast.Global | ast.Nonlocal) -> ast.Pass:
        return put(node, ast.Pass())

    visit_Nonlocal = visit_Global

    def visit_For(self, node: ast.For | ast.AsyncFor) -> list[ast.stmt]:
        self.generic_visit(node)
        target, body = node.target, node.body
        if not isinstance(target, ast.Name):
            target = put(target, ast.Name(EACH))
            body = [put(target, ast.Assign([node.target], ast.Name(EACH))), *body]
        return [put(node, ast.For(target, node.iter, body, [])), *node.orelse]

    visit_AsyncFor = visit_For

    def visit_While(self, node: ast.While) -> list[ast.stmt]:
        self.generic_visit(node)
        return [put(node, ast.While(node.test, node.body, [])), *node.orelse]

    def visit_With(self, node: ast.With | ast.AsyncWith) -> list[ast.stmt]:
        self.generic_visit(node)
        heads: list[ast.stmt] = []
        for item in node.items:
            value, target = item.context_expr, item.optional_vars
            heads.append(put(value, ast.Assign([target], value) if target else ast.Expr(value)))
        return heads + node.body

    visit_AsyncWith = visit_With

    def visit_Try(self, node: ast.Try | ast.TryStar) -> list[ast.stmt]:
        self.generic_visit(node)
        found: list[ast.stmt] = [put(node, ast.If(nothing(), node.body + node.orelse, []))]
        for handler in node.handlers:
            body = handler.body
            if handler.name:
                body = [put(handler, ast.Assign([ast.Name(handler.name)], nothing())), *body]
            found.append(put(handler, ast.If(handler.type or nothing(), body, [])))
        return found + node.finalbody

    visit_TryStar = visit_Try

    def visit_AsyncFunctionDef(self, node: ast.AsyncFunctionDef) -> ast.FunctionDef:
        self.generic_visit(node)
        return put(node, ast.FunctionDef(node.name, node.args, node.body, []))

    def visit_ClassDef(self, node: ast.ClassDef) -> list[ast.stmt]:
        self.generic_visit(node)
        before: list[ast.stmt] = []
        inside: list[ast.stmt] = []
        for kid in node.body:
            match kid:
                case ast.FunctionDef(args=ast.arguments(args=params)):
                    if not params or params[0].arg != 'self':
                        params.insert(0, ast.arg('self'))
                    inside.append(kid)
                case ast.Assign(targets=[ast.Name()]) | ast.Pass():
                    inside.append(kid)
                case _:
                    before.append(kid)
        node.body = inside
        return [*before, node]

    # ---- expressions; each becomes one

    def visit_Starred(self, node: ast.Starred) -> ast.expr:
        self.generic_visit(node)
        return node.value

    def visit_NamedExpr(self, node: ast.NamedExpr) -> ast.expr:
        self.generic_visit(node)
        return node.value

    def visit_Yield(self, node: ast.Yield | ast.YieldFrom | ast.Await) -> ast.expr:
        self.generic_visit(node)
        return put(node, ast.UnaryOp(ast.Not(), node.value or nothing()))

    visit_YieldFrom = visit_Await = visit_Yield

    def visit_IfExp(self, node: ast.IfExp) -> ast.expr:
        self.generic_visit(node)
        return put(node, all_of([node.test, node.body, node.orelse]))

    def visit_JoinedStr(self, node: ast.JoinedStr) -> ast.expr:
        self.generic_visit(node)
        return put(node, ast.Tuple(node.values))

    def visit_FormattedValue(self, node: ast.FormattedValue) -> ast.expr:
        self.generic_visit(node)
        return node.value

    def visit_Slice(self, node: ast.Slice) -> ast.expr:
        self.generic_visit(node)
        return put(node, ast.Tuple([part for part in (node.lower, node.upper, node.step) if part]))

    def visit_List(self, node: ast.List) -> ast.expr:
        self.generic_visit(node)
        return put(node, ast.Tuple(node.elts)) if isinstance(node.ctx, ast.Store) else node

    def visit_ListComp(self, node: Comprehension) -> ast.expr:
        self.generic_visit(node)
        value: ast.expr
        if isinstance(node, ast.DictComp):
            value = ast.Tuple([node.key, node.value])
        else:
            value = node.elt
        for part in reversed(node.generators):
            names = [name.id for name in ast.walk(part.target) if isinstance(name, ast.Name)]
            params = ast.arguments([], [ast.arg(name) for name in names], None, [], [], None, [])
            over = ast.Lambda(params, all_of([*part.ifs, value]))
            value = ast.Call(ast.Name('map'), [over, part.iter], [])
        return put(node, value)

    visit_SetComp = visit_GeneratorExp = visit_DictComp = visit_ListComp


def plain_python(source: str) -> list[ast.stmt]:
    """The statements of a script, each of which tree_of.py can take; but for `match`."""
    tree = ast.parse(source)
    for node in ast.walk(tree):
        plain_fields(node)
    Plain().visit(tree)
    return tree.body
