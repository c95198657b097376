"""The spelling of names: `namecheck` has to take a name exactly when the Reference's rule for ASCII
identifiers holds and it has at most 63 bytes; the rule itself is held against str.isidentifier.

Every byte string of up to two bytes and names round the longest stand as the name of a `global`;
those of up to one byte and the long ones also as a `var` and as a parameter.
"""

import re
import string
from collections import Counter
from enum import Enum
from typing import Iterator, NamedTuple

from .programs import namecheck_prints

AS_GLOBAL = b'tree\t1\t0\nglobal\t%s\n'
AS_VAR = b'tree\t0\t1\nexpr\t0\t1\nvar\t0\t1\t%s\n'
AS_PARAMETER = b'tree\t0\t1\ndef\t0\t1\tf\t0\t%s\n'
FIRST = (string.ascii_letters + '_').encode('ascii')
FURTHER = FIRST + string.digits.encode('ascii')
LONGEST = 63
LENGTHS = (62, 63, 64, 65, 127, 128, 255, 256, 257, 4096)
SHOWN = 10                      # of those that are wrong


class Answer(Enum):
    TAKEN = 'taken'
    REFUSED = 'refused'
    NEITHER = 'neither'         # something else was printed


class Case(NamedTuple):
    """A name, and the text in which it stands for %s."""

    name: bytes
    place: bytes


def spelled(name: bytes) -> bool:
    """The Reference's rule: a letter or underscore, then letters, digits and underscores."""
    return bool(name) and name[0] in FIRST and all(byte in FURTHER for byte in name)


def long_names() -> Iterator[bytes]:
    for length in LENGTHS:
        for byte in (b'a', b'Z', b'_', b'0'):
            yield byte * length
        for byte in (b'0', b'9', b'_', b'Q', b' ', b'-', b'.', b'@', b'[', b'`', b'{', b'\0',
                     b'\r', b'\x7f', b'\x80', b'\xe9', b'\xff'):
            yield byte + b'x' * (length - 1)
            yield b'x' * (length - 1) + byte
            yield b'x' * 31 + byte + b'x' * (length - 32)


def cases() -> Iterator[Case]:
    single = [bytes([byte]) for byte in range(256)]
    for name in [b'', *single, *long_names()]:
        for place in (AS_GLOBAL, AS_VAR, AS_PARAMETER):
            yield Case(name, place)
    for first in single:
        for second in single:
            yield Case(first + second, AS_GLOBAL)


def answer(namecheck: str, text: bytes) -> Answer:
    printed = namecheck_prints(namecheck, text)
    if re.fullmatch(rb'(fault\t8\t.*\n)?faults\t[01]\n', printed):
        return Answer.TAKEN
    if re.fullmatch(rb'refused\t[45]\t[0-9]+\n', printed):
        return Answer.REFUSED
    return Answer.NEITHER


def hold_spelling(namecheck: str) -> bool:
    """Holds all names against `namecheck`, and prints the first that are wrong."""
    answers: Counter[Answer] = Counter()
    wrong = 0
    for name, place in cases():
        expected = Answer.TAKEN if spelled(name) and len(name) <= LONGEST else Answer.REFUSED
        found = answer(namecheck, place % name)
        answers[found] += 1
        odd = name.isascii() and name.decode('ascii').isidentifier() != spelled(name)
        if found is not expected or odd:
            wrong += 1
            if wrong <= SHOWN:
                print('WRONG %r in %r: expected %s, found %s%s'
                      % (name, place, expected.value, found.value,
                         ', and str.isidentifier differs from the rule' if odd else ''))
    print('%d names in their places: %d taken, %d refused, %d neither, %d wrong'
          % (answers.total(), answers[Answer.TAKEN], answers[Answer.REFUSED],
             answers[Answer.NEITHER], wrong))
    return not wrong
