"""The Rust original's stack of scopes, and what it collects ahead: the names that a function
binds anywhere, and the free variables of a lambda."""

from typing import NamedTuple

from .kinds import BUILTINS
from .tree import Node


class ScopeStack:
    """Sets of names, the innermost last."""

    def __init__(self) -> None:
        self.stack: list[set[str]] = [set()]

    def push(self) -> None:
        self.stack.append(set())

    def pop(self) -> None:
        self.stack.pop()

    def define(self, name: str) -> None:
        self.stack[-1].add(name)

    def is_defined(self, name: str) -> bool:
        return any(name in scope for scope in reversed(self.stack))


def known(name: str, scopes: ScopeStack) -> bool:
    return scopes.is_defined(name) or name in BUILTINS


class Branches(NamedTuple):
    """What an if has after its condition."""

    then_block: list[Node]
    elif_blocks: list[Node]
    else_block: list[Node]


def if_blocks(stmt: Node) -> Branches:
    then, elifs, _ = stmt.counts
    return Branches(stmt.kids[1:1 + then], stmt.kids[1 + then:1 + then + elifs],
                    stmt.kids[1 + then + elifs:])


def collect_locals_from_target(target: Node, locals_: set[str]) -> None:
    if target.word == 'var':
        locals_.add(target.name)
    elif target.word == 'tuple':
        for kid in target.kids:
            collect_locals_from_target(kid, locals_)


def collect_locals(body: list[Node], locals_: set[str]) -> None:
    """Adds the names that statements of a function bind, early or late."""
    for stmt in body:
        word, kids = stmt.word, stmt.kids
        if word == 'assign':
            collect_locals_from_target(kids[1], locals_)
        elif word in ('def', 'class'):
            locals_.add(stmt.name)
        elif word == 'if':
            branches = if_blocks(stmt)
            collect_locals(branches.then_block, locals_)
            for branch in branches.elif_blocks:
                collect_locals(branch.kids[1:], locals_)
            collect_locals(branches.else_block, locals_)
        elif word == 'while':
            collect_locals(kids[1:], locals_)
        elif word == 'for':
            locals_.add(stmt.name)
            collect_locals(kids[1:], locals_)


def free_vars(expr: Node, params: list[str]) -> list[str]:
    """The free variables in the order of their first read, each once."""
    found: dict[str, None] = {}
    if expr.word == 'var':
        if expr.name not in params:
            found[expr.name] = None
    elif expr.word == 'lambda':
        for name in free_vars(expr.kids[0], expr.params):
            if name not in params:
                found[name] = None
    else:
        for kid in expr.kids:
            found.update(dict.fromkeys(free_vars(kid, params)))
    return list(found)
