"""The tree text: its limits, its words with their fields and children, and the text of a tree."""

import re
from dataclasses import dataclass, field
from typing import Literal, NamedTuple

TEXT_MAX = 65536        # bytes
WORK_MIN = 16384        # numbers
LINES_MAX = 4096        # after the first
DEPTH_MAX = 64
NAMES_MAX = 16          # parameters of one line
NAME_MAX = 63           # bytes
COUNT_MAX = 4096
SPAN_MAX = 4294967295

NAME = re.compile(rb'[A-Za-z_][A-Za-z0-9_]{0,%d}' % (NAME_MAX - 1))
NUMBER = re.compile(rb'0|[1-9][0-9]*')

Sort = Literal['tree', 'global', 'stmt', 'elif', 'method', 'attr', 'expr']


class Shape(NamedTuple):
    """What a line is due as, and its fields: S a span number, C a count, N a name, P parameters."""

    sort: Sort
    fields: str


SHAPES = {
    'tree': Shape('tree', 'CC'),
    'global': Shape('global', 'N'),
    'break': Shape('stmt', 'SS'),
    'continue': Shape('stmt', 'SS'),
    'pass': Shape('stmt', 'SS'),
    'def': Shape('stmt', 'SSNCP'),
    'assign': Shape('stmt', 'SS'),
    'if': Shape('stmt', 'SSCCC'),
    'while': Shape('stmt', 'SSC'),
    'for': Shape('stmt', 'SSNC'),
    'return': Shape('stmt', 'SS'),
    'expr': Shape('stmt', 'SS'),
    'class': Shape('stmt', 'SSNCC'),
    'elif': Shape('elif', 'C'),
    'method': Shape('method', 'NCP'),
    'attr': Shape('attr', 'N'),
    'lit': Shape('expr', 'SS'),
    'var': Shape('expr', 'SSN'),
    'un': Shape('expr', 'SS'),
    'bin': Shape('expr', 'SS'),
    'index': Shape('expr', 'SS'),
    'call': Shape('expr', 'SSC'),
    'get': Shape('expr', 'SSN'),
    'list': Shape('expr', 'SSC'),
    'tuple': Shape('expr', 'SSC'),
    'set': Shape('expr', 'SSC'),
    'treeset': Shape('expr', 'SSC'),
    'dict': Shape('expr', 'SSC'),
    'lambda': Shape('expr', 'SSP'),
}


@dataclass(eq=False)
class Node:
    """One line: its word, name, counts, parameters and span, and its children."""

    word: str
    name: str = ''          # empty where the word has none
    counts: list[int] = field(default_factory=list)
    params: list[str] = field(default_factory=list)
    kids: list['Node'] = field(default_factory=list)
    start: int = 0
    end: int = 0
    line: int = 0           # its line
    last: int = 0           # the last line below it, its own if there is none
    name_at: int = 0        # where its name stands in the text


class Due(NamedTuple):
    """So many children of a sort."""

    sort: Sort
    number: int


def children_due(node: Node) -> list[Due]:
    """The children of a line, in their order."""
    word, counts = node.word, node.counts
    if word == 'tree':
        return [Due('global', counts[0]), Due('stmt', counts[1])]
    if word in ('def', 'method'):
        return [Due('stmt', counts[0])]
    if word == 'assign':
        return [Due('expr', 2)]
    if word == 'if':
        return [Due('expr', 1), Due('stmt', counts[0]), Due('elif', counts[1]),
                Due('stmt', counts[2])]
    if word in ('elif', 'while', 'for'):
        return [Due('expr', 1), Due('stmt', counts[0])]
    if word in ('return', 'expr', 'attr', 'un', 'get', 'lambda'):
        return [Due('expr', 1)]
    if word == 'class':
        return [Due('method', counts[0]), Due('attr', counts[1])]
    if word in ('bin', 'index'):
        return [Due('expr', 2)]
    if word == 'call':
        return [Due('expr', 1 + counts[0])]
    if word in ('list', 'tuple', 'set', 'treeset'):
        return [Due('expr', counts[0])]
    if word == 'dict':
        return [Due('expr', 2 * counts[0])]
    return []                   # break, continue, pass, global, lit, var


def fields(node: Node) -> list[str]:
    """The fields of a line, its word first."""
    counts = list(node.counts)
    spans = [node.start, node.end]
    found = [node.word]
    for letter in SHAPES[node.word].fields:
        if letter == 'S':
            found.append(str(spans.pop(0)))
        elif letter == 'C':
            found.append(str(counts.pop(0)))
        elif letter == 'N':
            found.append(node.name)
        else:
            found.extend(node.params)
    return found


def render(tree: Node) -> bytes:
    """The text of a tree."""
    lines: list[str] = []

    def put(node: Node) -> None:
        lines.append('\t'.join(fields(node)) + '\n')
        for kid in node.kids:
            put(kid)

    put(tree)
    return ''.join(lines).encode('ascii')


def lines_of(*lines: str) -> bytes:
    """A text from lines in document 01's writing, `|` for a tab."""
    return ''.join(line.replace('|', '\t') + '\n' for line in lines).encode('latin-1')
