"""Document 01's scripts a to l, its table of refusals and faults, and answers of the calls: each
with the answer to expect."""

from typing import Iterator, NamedTuple

from .answers import NoMessage, Part, check, message, name, printed, report
from .faults import Record
from .reader import Refusal, read
from .tree import WORK_MIN, Node, lines_of


class Found(NamedTuple):
    """A fault: its kind and span, and the name in its record."""

    kind: int
    start: int
    end: int
    name: str = ''


class Script(NamedTuple):
    title: str
    text: bytes
    expected: list[Found] | Refusal     # all faults in their order, or the refusal


Answer = Refusal | Node | Record | None | list[Record] | NoMessage | bytes | Part


class Call(NamedTuple):
    """A call and its answer."""

    title: str
    found: Answer
    expected: Answer


def nested(depth: int, last: str = 'lit|0|1') -> bytes:
    """A text whose last line stands at this depth (at least 2)."""
    return lines_of('tree|0|1', 'expr|0|1', *(['un|0|1'] * (depth - 2)), last)


def names(count: int) -> str:
    """So many parameters."""
    return ''.join('|p%d' % i for i in range(count))


EMPTY = lines_of('tree|0|0')
PRNT = lines_of('tree|0|1', 'expr|0|7', 'call|0|7|1', 'var|0|4|prnt', 'lit|5|6')
UNKNOWN_Y = lines_of('tree|0|1', 'expr|0|1', 'var|0|1|y')
PASS = lines_of('tree|0|1', 'pass|0|4')
REFUSED = lines_of('tree|0|1', 'assign|0|5', 'lit|4|5', 'lit|0|1')
SELFLESS = lines_of('tree|0|1', 'class|0|30|C|1|0', 'method|m|1', 'pass|20|24')

SCRIPTS = [
    Script('script a', EMPTY, []),
    Script('script b', lines_of(
        'tree|0|1', 'assign|0|5', 'var|4|5|x', 'var|0|1|x'), [Found(8, 4, 5, 'x')]),
    Script('script c', lines_of(
        'tree|0|1', 'assign|0|13', 'lit|12|13', 'tuple|0|9|2', 'var|1|2|a', 'index|4|8',
        'var|4|5|a', 'lit|6|7'), []),
    Script('script d', lines_of(
        'tree|0|1', 'for|0|9|i|1', 'var|9|10|i', 'pass|12|16'), [Found(8, 9, 10, 'i')]),
    Script('script e', lines_of(
        'tree|0|1', 'def|0|40|f|2', 'def|10|24|g|1', 'pass|19|23', 'expr|30|33',
        'call|30|33|0', 'var|30|31|g'), [Found(12, 30, 33, 'g')]),
    Script('script f', lines_of(
        'tree|0|1', 'class|0|50|C|1|0', 'method|m|2|self', 'def|10|24|g|1', 'pass|19|23',
        'expr|30|33', 'call|30|33|0', 'var|30|31|g'), []),
    Script('script g', lines_of(
        'tree|0|1', 'def|0|40|f|2', 'expr|10|23', 'lambda|10|23', 'bin|18|23', 'var|18|19|q',
        'var|22|23|x', 'assign|30|35', 'lit|34|35', 'var|30|31|x'),
        [Found(13, 10, 23, 'x'), Found(8, 18, 19, 'q')]),
    Script('script h', lines_of(
        'tree|0|1', 'expr|0|13', 'lambda|0|13', 'bin|8|13', 'var|8|9|p', 'var|12|13|q'),
        [Found(10, 0, 13, 'p'), Found(10, 0, 13, 'q')]),
    Script('script i', lines_of(
        'tree|0|1', 'expr|0|25', 'lambda|0|25', 'lambda|9|24|p', 'bin|19|24', 'var|19|20|p',
        'var|23|24|q'), [Found(10, 0, 25, 'q')]),
    Script('script j', lines_of(
        'tree|0|1', 'assign|0|8', 'var|7|8|v', 'call|0|4|1', 'var|0|1|f', 'var|2|3|u'),
        [Found(8, 7, 8, 'v'), Found(14, 0, 4)]),
    Script('script k', lines_of(
        'tree|0|1', 'def|0|40|f|1|n', 'def|10|30|g|1', 'return|20|28', 'var|27|28|n'), []),
    Script('script l, depth 64', nested(64), []),
    Script('script l, depth 65', nested(65), Refusal(7, 66)),
    Script('script l, 16 parameters', lines_of('tree|0|1', 'def|0|9|f|0' + names(16)), []),
    Script('script l, name of 63', lines_of('tree|0|1', 'def|0|9|%s|0' % ('a' * 63)), []),
    Script('script l, name of 64', lines_of('tree|0|1', 'def|0|9|%s|0' % ('a' * 64)),
           Refusal(5, 2)),
    Script('prnt(1)', PRNT, [Found(9, 0, 7, 'prnt')]),
    Script('refusal 1', b'a' * 65537, Refusal(1, 0)),
    Script('refusal 1, one byte less', b'a' * 65536, Refusal(5, 1)),
    Script('refusal 3', b'', Refusal(3, 1)),
    Script('refusal 4', lines_of('tree|0|0', 'x'), Refusal(4, 2)),
    Script('refusal 5', lines_of('tree|0|01'), Refusal(5, 1)),
    Script('refusal 6', lines_of('tree|0|1', 'lit|0|1'), Refusal(6, 2)),
    Script('refusal 7', lines_of('tree|0|1', 'def|0|9|f|0' + names(17)), Refusal(7, 2)),
    Script('refusal 7, 4,096 lines', lines_of('tree|0|4096', *['pass|0|4'] * 4096), []),
    Script('refusal 7, 4,097 lines', lines_of(
        'tree|1|4096', 'global|x', *['pass|0|4'] * 4096), Refusal(7, 4098)),
    Script('fault 8', UNKNOWN_Y, [Found(8, 0, 1, 'y')]),
    Script('fault 9', lines_of(
        'tree|0|1', 'expr|0|3', 'call|0|3|0', 'var|0|1|y'), [Found(9, 0, 3, 'y')]),
    Script('fault 10', lines_of(
        'tree|0|1', 'expr|0|9', 'lambda|0|9', 'var|8|9|y'), [Found(10, 0, 9, 'y')]),
    Script('fault 11', lines_of(
        'tree|0|1', 'def|0|30|f|2', 'expr|10|11', 'var|10|11|x', 'assign|20|25', 'lit|24|25',
        'var|20|21|x'), [Found(11, 10, 11, 'x')]),
    Script('fault 12', lines_of(
        'tree|0|1', 'def|0|30|f|2', 'expr|10|13', 'call|10|13|0', 'var|10|11|x',
        'assign|20|25', 'lit|24|25', 'var|20|21|x'), [Found(12, 10, 13, 'x')]),
    Script('fault 13', lines_of(
        'tree|0|1', 'def|0|40|f|2', 'expr|10|19', 'lambda|10|19', 'var|18|19|x',
        'assign|30|35', 'lit|34|35', 'var|30|31|x'), [Found(13, 10, 19, 'x')]),
    Script('fault 14', REFUSED, [Found(14, 0, 1)]),
    Script('fault 15', SELFLESS, [Found(15, 0, 30, 'm')]),
    Script('refusal 17, its text', PASS, []),
]


def unknown_in_list(count: int) -> bytes:
    """A text with so many faults."""
    return lines_of('tree|0|1', 'expr|0|1', 'list|0|1|%d' % count, *['var|0|1|y'] * count)


def calls() -> Iterator[Call]:
    """Answers of the calls, those that the table of refusals has among them."""
    work = WORK_MIN
    yield Call('refusal 2', read(EMPTY, work - 1), Refusal(2, 0))
    yield Call('refusal 1 before 2', read(b'a' * 65537, 0), Refusal(1, 0))
    yield Call('check of script a', check(EMPTY, work), None)
    yield Call('check of fault 8', check(UNKNOWN_Y, work), Record(8, 0, 1, 26, 1))
    yield Call('check of fault 15', check(SELFLESS, work), Record(15, 0, 30, 33, 1, 20, 1))
    yield Call('refusal 16', report(UNKNOWN_Y, work, 6), Refusal(16, 1))
    yield Call('refusal 16, it fits', report(UNKNOWN_Y, work, 7), [Record(8, 0, 1, 26, 1)])
    yield Call('refusal 17', message(PASS, work, 0, 99), NoMessage.NO_FAULT)
    yield Call('refusal 17 before 18', message(PASS, work, 0, 0), NoMessage.NO_FAULT)
    yield Call('refusal 18', message(UNKNOWN_Y, work, 0, 20), NoMessage.TOO_LONG)
    yield Call('refusal 18, it fits', message(UNKNOWN_Y, work, 0, 21), b'Undefined variable: y')
    yield Call('name of fault 8', name(UNKNOWN_Y, work, 0), Part(26, 1))
    yield Call('name of fault 15', name(SELFLESS, work, 0), Part(33, 1))
    yield Call('name of fault 14', name(REFUSED, work, 0), Part(0, 0))
    yield Call('name of no fault', name(PASS, work, 0), Part(0, 0))
    yield Call('name of a refusal', name(b'', work, 0), Part(0, 0))
    yield Call('printed of prnt(1)', printed(PRNT),
               b'fault\t9\t0\t7\tUndefined function: prnt\nfaults\t1\n')
    yield Call('printed of script a', printed(EMPTY), b'faults\t0\n')
    yield Call('printed of refusal 4', printed(lines_of('tree|0|0', 'x')), b'refused\t4\t2\n')
    yield Call('printed of fault 14', printed(REFUSED),
               b'fault\t14\t0\t1\tInvalid assignment target: '
               b'cannot assign to literal, call, or expression\nfaults\t1\n')
    yield Call('printed of fault 15', printed(SELFLESS),
               b"fault\t15\t0\t30\tMethod 'm' in class 'C' must have 'self' as first parameter\n"
               b'faults\t1\n')
    yield Call('printed of 2,340 faults, the end', printed(unknown_in_list(2340))[-12:],
               b'faults\t2340\n')
    yield Call('printed of 2,341 faults', printed(unknown_in_list(2341)), b'refused\t16\t2341\n')
