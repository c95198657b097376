"""Frames for the programs that replay texts in the gate, and the two files that hold them: what a
program takes on its standard input, and what it has to write.

A frame is a letter, two numbers of four bytes and, for two of the letters, bytes:

    t   0 and a length          takes these bytes as the text
    r   times and a length      puts these bytes behind the text, so many times

What the other letters ask for is for the program to say.
"""

import argparse
from pathlib import Path
from typing import Callable, Iterable, NamedTuple

ROOM = 262144                   # bytes that a program reads


class Made(NamedTuple):
    """The two files, and how many answers they hold."""

    frames: bytes
    answers: bytes
    number: int


def summed(numbers: Iterable[int]) -> int:
    """The sum that the programs write of numbers."""
    total = 0
    for number in numbers:
        total = (total * 31 + number) % 4294967296
    return total


class Frames:
    """Collects frames, and the answers to those that ask for one."""

    def __init__(self) -> None:
        self.frames: list[bytes] = []
        self.answers: list[bytes] = []
        self.text = b''

    def frame(self, letter: bytes, a: int, b: int, more: bytes = b'') -> None:
        self.frames.append(letter + a.to_bytes(4, 'little') + b.to_bytes(4, 'little') + more)

    def take(self, text: bytes) -> None:
        self.text = text
        self.frame(b't', 0, len(text), text)

    def repeat(self, times: int, chunk: bytes) -> None:
        self.text += times * chunk
        self.frame(b'r', times, len(chunk), chunk)

    def made(self) -> Made:
        frames = b''.join(self.frames)
        assert len(frames) <= ROOM, len(frames)
        return Made(frames, b''.join(self.answers), len(self.answers))


def write(folder: Path, noun: str, made: Made) -> int:
    (folder / 'stdin').write_bytes(made.frames)
    (folder / 'stdout').write_bytes(made.answers)
    print('%d %s, %d bytes of frames, %d bytes of answers'
          % (made.number, noun, len(made.frames), len(made.answers)))
    return 0


def check(folder: Path, noun: str, made: Made) -> int:
    others = [file for file, expected in (('stdin', made.frames), ('stdout', made.answers))
              if (folder / file).read_bytes() != expected]
    print('%d %s: the files are %s' % (made.number, noun, 'OTHERS' if others else 'these'))
    for file in others:
        print('%s would be made otherwise' % (folder / file))
    return 1 if others else 0


def command(description: str | None, noun: str, make: Callable[[], Made]) -> int:
    """The command line that makes two such files."""
    parser = argparse.ArgumentParser(description=description,
                                     formatter_class=argparse.RawDescriptionHelpFormatter)
    commands = parser.add_subparsers(dest='command', required=True)
    for name, what in (('check', 'says whether FOLDER/stdin and FOLDER/stdout are what is made'),
                       ('write', 'writes FOLDER/stdin and FOLDER/stdout')):
        commands.add_parser(name, help=what).add_argument('folder', metavar='FOLDER', type=Path)
    given = parser.parse_args()
    folder: Path = given.folder
    return (check if given.command == 'check' else write)(folder, noun, make())
