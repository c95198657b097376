"""The reader: a text as a tree, or its refusal."""

from dataclasses import dataclass

from .tree import (COUNT_MAX, DEPTH_MAX, LINES_MAX, NAME, NAMES_MAX, NUMBER, SHAPES, SPAN_MAX,
                   TEXT_MAX, WORK_MIN, Node, Sort, children_due)


@dataclass(frozen=True)
class Refusal:
    """A refusal's number and what it carries: 1 to 7 a line, 16 the number of faults."""

    number: int
    carries: int


class Refused(Exception):
    """Ends the reading."""

    def __init__(self, number: int, line: int) -> None:
        super().__init__(number, line)
        self.refusal = Refusal(number, line)


def number_in(field: bytes, most: int) -> int | None:
    """The number that a field holds, or None."""
    if not NUMBER.fullmatch(field) or len(field) > 10:
        return None
    value = int(field)
    return None if value > most else value


def well_formed(line: bytes, offset: int) -> Node | None:
    """The line (without LF) as a childless Node, or None (refusal 5)."""
    word, *rest = line.split(b'\t')
    shape = SHAPES.get(word.decode('latin-1'))
    if shape is None:
        return None
    node = Node(word.decode('ascii'))
    spans: list[int] = []
    at = offset + len(word) + 1
    for letter in shape.fields:
        if letter == 'P':
            if not all(NAME.fullmatch(field) for field in rest):
                return None
            node.params = [field.decode('ascii') for field in rest]
            rest = []
            continue
        if not rest:
            return None
        field = rest.pop(0)
        if letter == 'N':
            if not NAME.fullmatch(field):
                return None
            node.name, node.name_at = field.decode('ascii'), at
        else:
            value = number_in(field, SPAN_MAX if letter == 'S' else COUNT_MAX)
            if value is None:
                return None
            (spans if letter == 'S' else node.counts).append(value)
        at += len(field) + 1
    if rest:
        return None
    if spans:
        node.start, node.end = spans
    return node


class Reader:
    """Reads a text line by line."""

    def __init__(self, text: bytes) -> None:
        self.text = text
        self.at = 0             # the next byte
        self.line = 1           # the line that starts there

    def node(self, sort: Sort, depth: int) -> Node:
        """The next line, which is due as this sort, with all that is below it."""
        if self.at == len(self.text):
            raise Refused(3, self.line)
        end = self.text.find(b'\n', self.at)
        if end < 0:
            raise Refused(5, self.line)
        node = well_formed(self.text[self.at:end], self.at)
        if node is None:
            raise Refused(5, self.line)
        if SHAPES[node.word].sort != sort:
            raise Refused(6, self.line)
        if (self.line > 1 + LINES_MAX or depth > DEPTH_MAX
                or len(node.params) > NAMES_MAX):
            raise Refused(7, self.line)
        node.line = self.line
        self.at = end + 1
        self.line += 1
        for due in children_due(node):
            for _ in range(due.number):
                node.kids.append(self.node(due.sort, depth + 1))
        node.last = self.line - 1
        return node


def read(text: bytes, work: int = WORK_MIN) -> Node | Refusal:
    """The tree of a text, or its refusal; work is the length of the work buffer."""
    if len(text) > TEXT_MAX:
        return Refusal(1, 0)
    if work < WORK_MIN:
        return Refusal(2, 0)
    reader = Reader(text)
    try:
        tree = reader.node('tree', 0)
    except Refused as refused:
        return refused.refusal
    if reader.at < len(text):
        return Refusal(4, reader.line)
    return tree
