#!/usr/bin/env python3
"""Makes texts for the reader, and what it has to answer, worked out by the independent reading of
document 01 (document01/), which shares no code and no definition with the reader.

They are two files: frames that the program `test_reader` takes on its standard input, and the
bytes that it has to write.
"""

import random
import string
import sys
from typing import Iterator, NamedTuple

from document01.damage import damaged
from document01.random_trees import random_tree
from document01.reader import Refusal, read
from document01.scripts import SCRIPTS
from document01.tree import SHAPES, WORK_MIN, Node, lines_of, render
from frames import Frames, Made, command, summed

# in the order of the kinds that the reader puts into its rows
WORDS = ('tree global break continue pass def assign if elif while for return expr '
         'class method attr lit var un bin index call get list tuple set treeset '
         'dict lambda').split()
CHANGED = b'\t\n09aZ_\x00\xff'       # what a byte is changed to

# a text that has each of the 29 words
EVERY_WORD = lines_of(
    'tree|1|9', 'global|g', 'break|0|5', 'continue|6|14', 'pass|15|19',
    'def|20|60|f|1|a|b2', 'return|30|35', 'lambda|37|50|x|_y', 'var|40|41|x',
    'assign|61|70', 'list|65|70|1', 'lit|66|67', 'tuple|61|63|2', 'var|61|62|p',
    'var|62|63|q_9', 'if|71|99|1|1|1', 'un|74|77', 'var|75|77|p', 'pass|80|84',
    'elif|0', 'bin|86|90', 'var|86|87|p', 'lit|89|90', 'while|92|99|0',
    'var|93|94|q_9', 'for|100|120|i|0', 'index|105|110', 'var|105|106|p',
    'lit|108|109', 'expr|121|140', 'call|121|140|2', 'get|121|125|run',
    'var|121|122|g', 'set|126|130|0', 'treeset|131|135|1', 'dict|132|134|1',
    'lit|132|133', 'lit|133|134', 'class|141|200|Oven|1|1', 'method|heat|1|self|t',
    'pass|160|164', 'attr|limit', 'lit|180|183')
LONG_FIELDS = lines_of(
    'tree|0|1', 'def|4294967295|4294967295|f|1|' + '|'.join('ab%d' % i for i in range(16)),
    'expr|0|0', 'var|0|4096|' + 'n' * 63)


class Row(NamedTuple):
    """What the reader leaves in the work buffer for a line."""

    kind: int
    below: int          # lines below it
    offset: int         # of its name; of the line where it has none
    name: int           # the first row with that name; 0 where it has none


def rows(tree: Node, text: bytes) -> list[Row]:
    """The rows of a tree, one for each line after the first."""
    starts = [0]
    for line in text.splitlines(keepends=True):
        starts.append(starts[-1] + len(line))
    found: list[Row] = []
    first: dict[str, int] = {}
    todo = list(reversed(tree.kids))
    while todo:
        node = todo.pop()
        todo.extend(reversed(node.kids))
        if node.name:
            offset, name = node.name_at, first.setdefault(node.name, len(found))
        else:
            offset, name = starts[node.line - 1], 0
        found.append(Row(WORDS.index(node.word), node.last - node.line, offset, name))
    return found


def answer(text: bytes, work: int, all_rows: bool) -> bytes:
    """The bytes that the program writes for one text."""
    tree = read(text, work)
    if isinstance(tree, Refusal):
        return b'refused\t%d\t%d\n' % (tree.number, tree.carries)
    found = rows(tree, text)
    total = summed(number for row in found for number in row)
    lines = [b'tree\t%d\t%d\t%d\n' % (tree.counts[0], len(found), total)]
    if all_rows:
        lines += [b'%d\t%d\t%d\t%d\n' % row for row in found]
    return b''.join(lines)


class Texts(Frames):
    """Texts, and what the reader answers."""

    def whole(self, work: int = WORK_MIN) -> None:
        """The text, with so many numbers of work."""
        self.frame(b'w', work, 0)
        self.answers.append(answer(self.text, work, True))

    def join(self, a: int, b: int) -> None:
        """The text up to byte a and from byte b on."""
        self.frame(b'j', a, b)
        self.answers.append(answer(self.text[:a] + self.text[b:], WORK_MIN, False))

    def change(self, at: int, byte: int) -> None:
        """The text with one byte changed."""
        self.frame(b'b', at, byte)
        text = self.text[:at] + bytes([byte]) + self.text[at + 1:]
        self.answers.append(answer(text, WORK_MIN, False))

    def damage(self) -> None:
        """Cut at every byte, changed at every place, each line dropped and doubled."""
        end = len(self.text)
        for at in range(end):
            self.join(at, end)
        for at in range(end):
            for byte in CHANGED:
                if byte != self.text[at]:
                    self.change(at, byte)
        at = 0
        for line in self.text.splitlines(keepends=True):
            self.join(at, at + len(line))
            self.join(at + len(line), at)
            at += len(line)


def document01_scripts(texts: Texts) -> None:
    """Document 01's scripts and table of refusals, also with a work buffer that is too short."""
    for script in SCRIPTS:
        if len(script.text) <= 5000:
            texts.take(script.text)
            for work in (16384, 16383, 0):
                texts.whole(work)


def longest_texts(texts: Texts) -> None:
    """65,536 and 65,537 bytes, of a tree and of no tree; 4,096 and 4,097 lines."""
    for extra in (0, 1):
        texts.take(b'tree\t0\t4096\n')
        texts.repeat(4094, b'pass\t1000\t10001\n')
        texts.repeat(1, b'pass\t0\t1\n')
        texts.repeat(1, b'pass\t0\t1' + b'0' * (2 + extra) + b'\n')
        assert len(texts.text) == 65536 + extra
        texts.whole()
        texts.whole(16383)
    for extra in (0, 1):
        texts.take(b'a')
        texts.repeat(65535 + extra, b'a')
        texts.whole()
    for globals_ in (0, 1):
        texts.take(b'tree\t%d\t4096\n' % globals_)
        texts.repeat(globals_, b'global\tx\n')
        texts.repeat(4096, b'pass\t0\t4\n')
        texts.whole()


def at_limits() -> Iterator[bytes]:
    """A line of each word, each of its numbers at and past its limit."""
    seen: set[str] = set()
    for line in EVERY_WORD.decode('ascii').splitlines():
        fields = line.split('\t')
        if fields[0] in seen:
            continue
        seen.add(fields[0])
        before = '' if fields[0] == 'tree' else 'tree\t0\t1\n'
        for place, letter in enumerate(SHAPES[fields[0]].fields, 1):
            for value in {'S': (4294967295, 4294967296), 'C': (4096, 4097)}.get(letter, ()):
                changed = fields[:place] + [str(value)] + fields[place + 1:]
                yield (before + '\t'.join(changed) + '\n').encode('ascii')


def numbers(texts: Texts) -> None:
    for text in at_limits():
        texts.take(text)
        texts.whole()


def damaged_copies(texts: Texts) -> None:
    for text in (EVERY_WORD, LONG_FIELDS):
        texts.take(text)
        texts.whole()
        texts.damage()


def names(texts: Texts) -> None:
    """All of two characters; many, shared prefixes, equal ones far apart."""
    first = string.ascii_letters + '_'
    pairs = [a + b for a in first for b in first + string.digits]
    texts.take(lines_of('tree|%d|0' % len(pairs), *('global|' + name for name in pairs)))
    texts.whole()
    rng = random.Random(3)
    for pool in (['n%d' % i for i in range(400)], ['a' * i for i in range(1, 64)],
                 ['p' * 50 + str(i) for i in range(90)]):
        chosen = [rng.choice(pool) for _ in range(300)]
        texts.take(lines_of('tree|0|300', *(
            line for name in chosen for line in ('expr|0|1', 'var|0|1|' + name))))
        texts.whole()


def random_trees(texts: Texts) -> None:
    """Random trees and damaged ones."""
    rng = random.Random(11)
    for _ in range(60):
        text = render(random_tree(rng, rng.randrange(2, 25)))
        texts.take(text)
        texts.whole()
        for _ in range(6):
            texts.take(damaged(rng, text))
            texts.whole()


def made() -> Made:
    texts = Texts()
    document01_scripts(texts)
    longest_texts(texts)
    numbers(texts)
    damaged_copies(texts)
    names(texts)
    random_trees(texts)
    return texts.made()


if __name__ == '__main__':
    sys.exit(command(__doc__, 'texts', made))
