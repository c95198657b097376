#!/usr/bin/env python3
"""Makes calls of check, report, message, name and version as C has them, and what they have to answer,
worked out by the independent reading of document 01 (document01/) and the numbers of the header.

They are two files: frames that the program `test_calls` takes on its standard input, and the
bytes that it has to write.  Every call finds its buffers filled, most of them with ones; all numbers
of the answer are shown, and a sum over the whole output buffer shows what was written and that the
rest is unchanged.
"""

import random
import sys

from document01 import answers
from document01.answers import NoMessage, faults_of
from document01.damage import damaged
from document01.random_trees import random_tree
from document01.reader import Refusal
from document01.scripts import SCRIPTS
from document01.tree import render
from frames import Frames, Made, command, summed
from header import constants

ONES = 4294967295
WORK = 16384
C = constants()


def numbered(call: str, number: int, *values: int) -> bytes:
    """A call's name and its answer: the number, what goes with it, and 0 up to the length of the answer."""
    length = C[call.upper() + '_ANSWER']
    numbers = [number, *values] + [0] * (length - 1 - len(values))
    assert len(numbers) == length
    return ('\t'.join([call, *map(str, numbers)]) + '\t').encode('ascii')


class Calls(Frames):
    """Calls on a text, and their answers."""

    def check(self, work: int, value: int) -> None:
        """With so many numbers of work, each of this value."""
        self.frame(b'c', work, value)
        answer = answers.check(self.text, work)
        if answer is None:
            said = numbered('check', C['ACCEPTED'])
        elif isinstance(answer, Refusal):
            said = numbered('check', answer.number, answer.carries)
        else:
            said = numbered('check', *answer)
        self.answers.append(said + b'\n')

    def report(self, work: int, room: int, value: int = ONES) -> None:
        """To an output of so many numbers, each of this value: ones or zeros."""
        self.frame(b'p' if value else b'q', work, room)
        answer = answers.report(self.text, work, room)
        out = [value] * room
        if isinstance(answer, Refusal):
            said = numbered('report', answer.number, answer.carries)
        else:
            numbers = answers.numbers(answer)
            out[:len(numbers)] = numbers
            said = numbered('report', C['WRITTEN'], len(answer))
        self.answers.append(b'%s%d\n' % (said, summed(out)))

    def message(self, i: int, room: int) -> None:
        """To an output of so many bytes, all ones."""
        self.frame(b'm', i, room)
        answer = answers.message(self.text, WORK, i, room)
        out = bytearray(b'\xff' * room)
        if isinstance(answer, Refusal):
            said = numbered('message', answer.number, answer.carries)
        elif isinstance(answer, NoMessage):
            said = numbered('message', answer.value)
        else:
            out[:len(answer)] = answer
            said = numbered('message', C['WRITTEN'], len(answer)) + answer
        self.answers.append(b'%s\t%d\n' % (said, summed(out)))

    def name(self, i: int) -> None:
        self.frame(b'n', i, 0)
        part = answers.name(self.text, WORK, i)
        said = numbered('name', C['PART'], part.offset, part.length)
        self.answers.append(b'%s%s\n' % (said, part.of(self.text)))

    def version(self) -> None:
        self.frame(b'v', 0, 0)
        self.answers.append(numbered('version', C['VERSION_MAJOR'], C['VERSION_MINOR'], C['VERSION_PATCH']) + b'\n')

    def all_calls(self, most: int = 40) -> None:
        """Each call on the text; buffers empty, one short and exactly full."""
        found = faults_of(self.text)
        count = len(found)
        for work in (WORK, WORK - 1, 1, 0, WORK + 1):
            self.check(work, ONES)
            self.report(work, 7 * count)
        for value in (0, 1):
            self.check(WORK, value)
        self.report(WORK, 7 * count, 0)
        for room in sorted({0, 1, 7 * count - 1, 7 * count + 1, 7 * count + 7} - {-1}):
            self.report(WORK, room)
        last = {max(count - 1, 0), count, count + 1, ONES}
        for i in sorted(set(range(min(count, most))) | last):
            length = len(found[i].message) if i < count else 0
            for room in sorted({0, max(length - 1, 0), length, 200}):
                self.message(i, room)
            self.name(i)

    def few_calls(self, rng: random.Random) -> None:
        """Some calls on the text, with buffers that may be too short."""
        count = len(faults_of(self.text))
        self.check(WORK, ONES)
        self.report(WORK, 7 * count)
        self.report(WORK, max(7 * count - rng.randrange(1, 8), 0))
        i = rng.randrange(count + 1)
        self.message(i, 200)
        self.name(i)


def document01_scripts(calls: Calls) -> None:
    for script in SCRIPTS:
        if len(script.text) <= 5000:
            calls.take(script.text)
            calls.all_calls()


def longest_texts(calls: Calls) -> None:
    """The longest text, one byte more, and 4,096 lines."""
    for extra in (0, 1):
        calls.take(b'a')
        calls.repeat(65535 + extra, b'a')
        calls.check(WORK, ONES)
        calls.check(0, ONES)
        calls.report(0, 0)
        calls.name(0)
    calls.take(b'tree\t0\t4096\n')
    calls.repeat(4096, b'pass\t0\t4\n')
    calls.check(WORK, ONES)
    calls.report(WORK, 0)


def many_faults(calls: Calls) -> None:
    """As many as fit 16,384 numbers, one more, and one on each line but two."""
    for count in (2340, 2341, 4094):
        calls.take(b'tree\t0\t1\nexpr\t0\t1\nlist\t0\t1\t%d\n' % count)
        calls.repeat(count, b'var\t0\t1\ty\n')
        calls.check(WORK, ONES)
        for room in (WORK, WORK - 4, WORK - 5):
            calls.report(WORK, room)
        for i in (0, count - 1, count):
            calls.message(i, 200)
            calls.name(i)


def random_trees(calls: Calls) -> None:
    """Random trees and damaged ones: all kinds, many times."""
    rng = random.Random(29)
    for lines in (3, 6, 12, 25, 60):
        for k in range(230 if lines < 20 else 40):
            text = render(random_tree(rng, lines))
            calls.take(text)
            if k < 6:
                calls.all_calls(most=12)
            else:
                calls.few_calls(rng)
            if k % 4 == 0:
                calls.take(damaged(rng, text))
                calls.few_calls(rng)


def made() -> Made:
    calls = Calls()
    calls.version()
    document01_scripts(calls)
    longest_texts(calls)
    many_faults(calls)
    random_trees(calls)
    return calls.made()


if __name__ == '__main__':
    sys.exit(command(__doc__, 'calls', made))
