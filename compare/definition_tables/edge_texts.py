"""Texts at the edges of the rules: numbers, names and parameters at their limits, stray bytes, each
word where each sort of line is due, and depths round the limit."""

from itertools import chain
from typing import Iterator

from document01.scripts import SCRIPTS, names, nested
from document01.tree import lines_of


def in_utf8(*lines: str) -> bytes:
    """A text from lines, as lines_of, but in UTF-8."""
    return ''.join(line.replace('|', '\t') + '\n' for line in lines).encode('utf-8')


def after(*lines: str) -> bytes:
    """A text of one statement."""
    return lines_of('tree|0|1', *lines)


def numbers() -> Iterator[bytes]:
    """Counts of the first line, and spans."""
    for number in ('+1', '-0', '-1', '00', '01', '000', '', ' 1', '1 ', '1.', '0x1', '1e3', '4096',
                   '4097', '9999', '40960', '04096', '10000000000', '1' * 30, 'a', '٣',
                   '4294967296'):
        yield in_utf8('tree|0|%s' % number)
        yield in_utf8('tree|%s|0' % number)
    for number in ('4294967295', '4294967296', '4294967294', '42949672950', '04294967295', '00',
                   '0', '-0', '+0', '', '99999999999999999999999', '4294967305', '5000000000'):
        yield after('pass|%s|0' % number)
        yield after('pass|0|%s' % number)
        yield after('expr|0|0', 'var|%s|%s|y' % (number, number))
        yield after('class|%s|1|C|1|0' % number, 'method|m|0')


def counts() -> Iterator[bytes]:
    """A count of each word that has one."""
    for count in ('0', '1', '4096', '4097', '01', '', 'x'):
        yield after('def|0|0|f|%s' % count)
        yield after('def|0|0|f|%s|a' % count)
        yield after('if|0|0|%s|0|0' % count, 'lit|0|0')
        yield after('if|0|0|0|%s|0' % count, 'lit|0|0')
        yield after('if|0|0|0|0|%s' % count, 'lit|0|0')
        yield after('while|0|0|%s' % count, 'lit|0|0')
        yield after('for|0|0|i|%s' % count, 'lit|0|0')
        yield after('class|0|0|C|%s|0' % count)
        yield after('class|0|0|C|0|%s' % count)
        yield after('class|0|0|C|1|0', 'method|m|%s|self' % count)
        for word in ('call', 'list', 'tuple', 'set', 'treeset', 'dict'):
            yield after('expr|0|0', '%s|0|0|%s' % (word, count), 'lit|0|0')
            yield after('expr|0|0', '%s|0|0|%s' % (word, count), 'lit|0|0', 'lit|0|0')
        yield lines_of('tree|%s|0' % count, 'global|x')
        yield after('if|0|0|0|1|0', 'lit|0|0', 'elif|%s' % count, 'lit|0|0', 'pass|0|0')


def spellings() -> Iterator[bytes]:
    """A name at each place that has one."""
    for name in ('a' * 62, 'a' * 63, 'a' * 64, 'a' * 65, '_', '__', '_1', '1a', '9', 'A', 'Z', 'z',
                 'aZ09_', '', ' a', 'a ', 'a-b', 'a.b', 'a@', 'a[', 'a`', 'a{', 'a/', 'a:', '@',
                 '[', '`', '{', '/', ':', 'é', 'def', 'tree', 'None', 'a\x00', 'a\x7f', 'a\r',
                 '"', '\\', "'"):
        yield in_utf8('tree|1|0', 'global|' + name)
        for lines in (['expr|0|0', 'var|0|0|' + name],
                      ['expr|0|0', 'get|0|0|' + name, 'lit|0|0'],
                      ['def|0|0|%s|0' % name],
                      ['def|0|0|f|0|' + name],
                      ['def|0|0|f|0|a|%s|b' % name],
                      ['for|0|0|%s|0' % name, 'var|0|0|y'],
                      ['class|0|0|%s|1|0' % name, 'method|m|0|' + name],
                      ['class|0|0|C|1|0', 'method|%s|0' % name],
                      ['class|0|0|C|0|1', 'attr|' + name, 'var|0|0|y'],
                      ['expr|0|0', 'lambda|0|0|' + name, 'var|0|0|y']):
            yield in_utf8('tree|0|1', *lines)


def parameters() -> Iterator[bytes]:
    """16 and 17 names, with a bad one, not due, too deep."""
    for count in (15, 16, 17, 18, 30):
        for tail in ('', '|', '|1', '|' + 'a' * 63, '|' + 'a' * 64, '|a b'):
            params = names(count) + tail
            yield after('def|0|0|f|0' + params)
            yield after('def|0|0|f|0' + tail + names(count))
            yield after('class|0|0|C|1|0', 'method|m|0' + params)
            yield after('expr|0|0', 'lambda|0|0' + params, 'lit|0|0')
            yield after('lambda|0|0' + params, 'lit|0|0')
            yield after('method|m|0' + params)
            yield after('expr|0|0', 'def|0|0|f|0' + params)
            yield lines_of('lambda|0|0' + params)
            yield lines_of('tree|1|0', 'def|0|0|f|0' + params)
            yield lines_of('tree|0|0', 'def|0|0|f|0' + params)
            yield nested(64, 'lambda|0|1' + params)
            yield nested(65, 'lambda|0|1' + params)
            yield after('def|0|0|f|0' + params)[:-1]


GOOD = lines_of('tree|1|2', 'global|g', 'expr|0|7', 'call|0|7|1', 'var|0|4|prnt', 'lit|5|6',
                'pass|9|9')


def stray_bytes() -> Iterator[bytes]:
    """CR, NUL, spaces, empty lines, trailing tabs, empty fields, no LF, bytes over 127."""
    for cut in range(len(GOOD) + 1):
        yield GOOD[:cut]
    for byte in (0, 9, 10, 13, 32, 48, 97, 127, 128, 255):
        for at in range(0, len(GOOD), 3):
            yield GOOD[:at] + bytes([byte]) + GOOD[at:]
            yield GOOD[:at] + bytes([byte]) + GOOD[at + 1:]
    for tail in (b'\n', b'\r\n', b' ', b'\t', b'x', b'\x00', b'\xff', b'\xff\n', b'pass\t0\t0',
                 b'pass\t0\t0\n', b'tree\t0\t0\n', b'x\ny\n'):
        yield GOOD + tail
        yield b'tree\t0\t0\n' + tail
        yield tail
        yield b'tree\t0\t1\n' + tail
        yield b'tree\t1\t0\n' + tail
        yield tail + GOOD
        yield GOOD[:-1] + tail
    for line in ('tree|0|0|', 'tree|0||0', '|tree|0|0', 'tree||0', 'tree|0', 'tree', 'tree|0|0|0',
                 'Tree|0|0', 'TREE|0|0', 'tree 0 0', 'tree|0 0', 'treeset|0|0|0', 'tre|0|0', ''):
        yield lines_of(line)
        yield lines_of(line, 'pass|0|0')


EACH_WORD = (
    'tree|0|0', 'global|x', 'break|0|0', 'continue|0|0', 'pass|0|0', 'def|0|0|f|0', 'assign|0|0',
    'if|0|0|0|0|0', 'elif|0', 'while|0|0|0', 'for|0|0|i|0', 'return|0|0', 'expr|0|0',
    'class|0|0|C|0|0', 'method|m|0', 'attr|a', 'lit|0|0', 'var|0|0|x', 'un|0|0', 'bin|0|0',
    'index|0|0', 'call|0|0|0', 'get|0|0|x', 'list|0|0|0', 'tuple|0|0|0', 'set|0|0|0',
    'treeset|0|0|0', 'dict|0|0|0', 'lambda|0|0')
BEFORE: list[list[str]] = [     # lines after which another is due, of another sort or place
    [], ['tree|1|1'], ['tree|0|1'], ['tree|0|1', 'expr|0|0'],
    ['tree|0|1', 'if|0|0|0|1|0', 'lit|0|0'], ['tree|0|1', 'if|0|0|1|1|0', 'lit|0|0'],
    ['tree|0|1', 'if|0|0|0|0|1', 'lit|0|0'], ['tree|0|1', 'class|0|0|C|1|1'],
    ['tree|0|1', 'class|0|0|C|0|1'], ['tree|0|1', 'class|0|0|C|0|1', 'attr|a'],
    ['tree|0|1', 'class|0|0|C|1|0', 'method|m|1|self'], ['tree|0|1', 'assign|0|0', 'lit|0|0'],
    ['tree|0|1', 'for|0|0|i|1', 'lit|0|0'], ['tree|0|0'],
    ['tree|0|1', 'expr|0|0', 'dict|0|0|1', 'lit|0|0']]


def words_where_due() -> Iterator[bytes]:
    """Each word where each sort is due."""
    for before in BEFORE:
        for line in EACH_WORD:
            yield lines_of(*before, line)
            yield lines_of(*before, line, 'var|1|2|y', 'var|3|4|y', 'pass|0|0')
            yield lines_of(*before, line + '|')
            yield lines_of(*before, line + '|0')
            yield lines_of(*before, line.rsplit('|', 1)[0])
            yield lines_of(*before, line)[:-1]


DEEP_EXPRESSIONS = (
    'lit|0|1', 'var|0|1|y', 'un|0|1', 'pass|0|1', 'x', 'call|0|1|0', 'lambda|0|1', 'tuple|0|1|0',
    'tuple|0|1|1', 'tree|0|0', 'global|x', 'elif|0', 'lambda|0|1' + names(17))
DEEP_STATEMENTS: list[list[str]] = [     # a statement, and what is below it
    ['pass|0|1'], ['expr|0|1', 'var|0|1|y'], ['if|0|1|0|0|0', 'lit|0|1'],
    ['if|0|1|0|1|0', 'lit|0|1', 'elif|0', 'lit|0|1'], ['class|0|1|C|0|0'],
    ['if|0|1|0|1|0', 'lit|0|1', 'elif|1', 'lit|0|1', 'pass|0|1'],
    ['class|0|1|C|1|0', 'method|m|0'], ['class|0|1|C|1|0', 'method|m|1', 'pass|0|1'],
    ['class|0|1|C|0|1', 'attr|a', 'lit|0|1'], ['class|0|1|C|0|1'], ['class|0|1|C|1|0'],
    ['class|0|1|C|1|0', 'attr|a', 'lit|0|1'], ['class|0|1|C|0|1', 'method|m|0'],
    ['class|0|1|C|0|1', 'attr|1', 'lit|0|1'], ['class|0|1|C|1|0', 'method|m|0' + names(17)],
    ['class|0|1|C|0|1', 'attr|a'], ['if|0|1|0|1|0', 'lit|0|1', 'pass|0|1'],
    ['if|0|1|0|1|0', 'lit|0|1'], ['if|0|1|0|1|0', 'lit|0|1', 'elif|x'],
    ['def|0|1|f|0'], ['def|0|1|f|1', 'pass|0|1'], ['def|0|1|f|1'],
    ['lit|0|1'], ['def|0|1|f|0' + names(17)], ['def|0|1|f|4097'], []]


def in_whiles(depth: int, inner: list[str]) -> bytes:
    """These lines at a depth, in while statements in one another."""
    return after(*['while|0|1|1', 'lit|0|1'] * (depth - 1), *inner)


def depths() -> Iterator[bytes]:
    """Expressions and statements round the greatest depth."""
    for depth in (62, 63, 64, 65):
        for line in DEEP_EXPRESSIONS:
            yield nested(depth, line)
            yield nested(depth, line)[:-1]
        yield nested(depth, 'lit|0|1')[:-len('lit|0|1') - 1]
        for inner in DEEP_STATEMENTS:
            yield in_whiles(depth, inner)


def edge_texts() -> list[bytes]:
    """All of them after document 01's scripts that are not too long, each once."""
    scripts = (script.text for script in SCRIPTS if len(script.text) < 4000)
    return list(dict.fromkeys(chain(
        scripts, numbers(), counts(), spellings(), parameters(), stray_bytes(), words_where_due(),
        depths())))
