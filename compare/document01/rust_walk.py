"""The walk of the Rust original, which ends at its first error.

Of several captured names of one lambda, which the Rust picks from an unordered set, this walk
names the first faulty read."""

from typing import NamedTuple, NoReturn

from .kinds import BUILTINS, in_words
from .rust_scopes import ScopeStack, collect_locals, free_vars, if_blocks, known
from .tree import Node


class FirstError(NamedTuple):
    kind: int
    start: int
    end: int
    message: bytes


class SemanticError(Exception):
    """Ends the walk."""

    def __init__(self, error: FirstError) -> None:
        super().__init__(error)
        self.error = error


def fail(kind: int, node: Node, *names: str) -> NoReturn:
    raise SemanticError(FirstError(kind, node.start, node.end, in_words(kind, *names)))


def rust_walk(tree: Node) -> FirstError | None:
    """The Rust's first error, or None."""
    scopes = ScopeStack()
    for name in BUILTINS:
        scopes.define(name)
    for kid in tree.kids:
        if kid.word == 'global':
            scopes.define(kid.name)
    try:
        analyze_block_module([kid for kid in tree.kids if kid.word != 'global'], scopes)
    except SemanticError as stop:
        return stop.error
    return None


# ------------------------------------------------------------------ in the module

def analyze_block_module(block: list[Node], scopes: ScopeStack) -> None:
    for stmt in block:
        analyze_stmt_module(stmt, scopes)


def analyze_stmt_module(stmt: Node, scopes: ScopeStack) -> None:
    word, kids = stmt.word, stmt.kids
    if word in ('break', 'continue', 'pass'):
        return
    if word == 'def':
        scopes.define(stmt.name)
        analyze_function(stmt.params, kids, scopes)
    elif word == 'assign':
        analyze_expr_module(kids[0], scopes)
        assign_target_module(kids[1], scopes)
    elif word == 'if':
        branches = if_blocks(stmt)
        analyze_expr_module(kids[0], scopes)
        analyze_block_module(branches.then_block, scopes)
        for branch in branches.elif_blocks:
            analyze_expr_module(branch.kids[0], scopes)
            analyze_block_module(branch.kids[1:], scopes)
        analyze_block_module(branches.else_block, scopes)
    elif word == 'while':
        analyze_expr_module(kids[0], scopes)
        analyze_block_module(kids[1:], scopes)
    elif word == 'for':
        analyze_expr_module(kids[0], scopes)
        scopes.define(stmt.name)
        analyze_block_module(kids[1:], scopes)
    elif word in ('return', 'expr'):
        analyze_expr_module(kids[0], scopes)
    else:
        assert word == 'class'
        scopes.define(stmt.name)
        for method in kids[:stmt.counts[0]]:
            analyze_method(method, stmt, scopes)


def analyze_method(method: Node, owner: Node, scopes: ScopeStack) -> None:
    if not method.params or method.params[0] != 'self':
        fail(15, owner, method.name, owner.name)
    scopes.push()
    for param in method.params:
        scopes.define(param)
    locals_ = set(method.params)
    assigned = set(method.params)
    analyze_block_function(method.kids, scopes, locals_, assigned)
    scopes.pop()


def assign_target_module(target: Node, scopes: ScopeStack) -> None:
    if target.word == 'var':
        if not scopes.is_defined(target.name):
            scopes.define(target.name)
    elif target.word in ('get', 'index'):
        analyze_expr_module(target, scopes)
    elif target.word == 'tuple':
        for kid in target.kids:
            assign_target_module(kid, scopes)
    else:
        fail(14, target)


def analyze_expr_module(expr: Node, scopes: ScopeStack) -> None:
    word, kids = expr.word, expr.kids
    if word == 'lit':
        return
    if word == 'var':
        if not known(expr.name, scopes):
            fail(8, expr, expr.name)
    elif word == 'call':
        if kids[0].word == 'var':
            if not known(kids[0].name, scopes):
                fail(9, expr, kids[0].name)
        else:
            analyze_expr_module(kids[0], scopes)
        for kid in kids[1:]:
            analyze_expr_module(kid, scopes)
    elif word == 'lambda':
        for name in free_vars(kids[0], expr.params):
            if not known(name, scopes):
                fail(10, expr, name)
        scopes.push()
        for param in expr.params:
            scopes.define(param)
        analyze_expr_module(kids[0], scopes)
        scopes.pop()
    else:
        for kid in kids:
            analyze_expr_module(kid, scopes)


# ---------------------------------------------------------------- in a function

def analyze_function(params: list[str], body: list[Node], scopes: ScopeStack) -> None:
    scopes.push()
    for param in params:
        scopes.define(param)
    locals_ = set(params)
    collect_locals(body, locals_)
    assigned = set(params)
    analyze_block_function(body, scopes, locals_, assigned)
    scopes.pop()


def analyze_block_function(block: list[Node], scopes: ScopeStack,
                           locals_: set[str], assigned: set[str]) -> None:
    for stmt in block:
        analyze_stmt_function(stmt, scopes, locals_, assigned)


def analyze_stmt_function(stmt: Node, scopes: ScopeStack,
                          locals_: set[str], assigned: set[str]) -> None:
    word, kids = stmt.word, stmt.kids
    if word in ('break', 'continue', 'pass'):
        return
    if word == 'assign':
        analyze_expr_function(kids[0], scopes, locals_, assigned)
        assign_target_function(kids[1], scopes, locals_, assigned)
    elif word == 'def':
        if not scopes.is_defined(stmt.name):
            scopes.define(stmt.name)
        analyze_function(stmt.params, kids, scopes)
    elif word == 'if':
        branches = if_blocks(stmt)
        analyze_expr_function(kids[0], scopes, locals_, assigned)
        analyze_block_function(branches.then_block, scopes, locals_, assigned)
        for branch in branches.elif_blocks:
            analyze_expr_function(branch.kids[0], scopes, locals_, assigned)
            analyze_block_function(branch.kids[1:], scopes, locals_, assigned)
        analyze_block_function(branches.else_block, scopes, locals_, assigned)
    elif word == 'while':
        analyze_expr_function(kids[0], scopes, locals_, assigned)
        analyze_block_function(kids[1:], scopes, locals_, assigned)
    elif word == 'for':
        analyze_expr_function(kids[0], scopes, locals_, assigned)
        if not scopes.is_defined(stmt.name):
            scopes.define(stmt.name)
        if stmt.name in locals_:
            assigned.add(stmt.name)
        analyze_block_function(kids[1:], scopes, locals_, assigned)
    elif word in ('return', 'expr'):
        analyze_expr_function(kids[0], scopes, locals_, assigned)
    else:
        assert word == 'class'
        scopes.define(stmt.name)


def assign_target_function(target: Node, scopes: ScopeStack,
                           locals_: set[str], assigned: set[str]) -> None:
    if target.word == 'var':
        assigned.add(target.name)
        if not scopes.is_defined(target.name):
            scopes.define(target.name)
    elif target.word in ('get', 'index'):
        analyze_expr_function(target, scopes, locals_, assigned)
    elif target.word == 'tuple':
        for kid in target.kids:
            assign_target_function(kid, scopes, locals_, assigned)
    else:
        fail(14, target)


def analyze_expr_function(expr: Node, scopes: ScopeStack,
                          locals_: set[str], assigned: set[str]) -> None:
    word, kids = expr.word, expr.kids
    if word == 'lit':
        return
    if word == 'var':
        if expr.name in locals_:
            if expr.name not in assigned:
                fail(11, expr, expr.name)
        elif not known(expr.name, scopes):
            fail(8, expr, expr.name)
    elif word == 'call':
        if kids[0].word == 'var':
            name = kids[0].name
            if name in locals_:
                if name not in assigned:
                    fail(12, expr, name)
            elif not known(name, scopes):
                fail(9, expr, name)
        else:
            analyze_expr_function(kids[0], scopes, locals_, assigned)
        for kid in kids[1:]:
            analyze_expr_function(kid, scopes, locals_, assigned)
    elif word == 'lambda':
        for name in free_vars(kids[0], expr.params):
            if name in locals_ and name not in assigned:
                fail(13, expr, name)
        scopes.push()
        for param in expr.params:
            scopes.define(param)
        lambda_locals = set(expr.params)
        analyze_expr_function(kids[0], scopes, lambda_locals, lambda_locals)
        scopes.pop()
    else:
        for kid in kids:
            analyze_expr_function(kid, scopes, locals_, assigned)
