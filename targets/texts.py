"""Frames for replay.c: calls on random and damaged texts, and on trees as deep as a text may have them.

The random trees and the damage are those of compare/document01, the frames those of compare/frames.py.
"""

import sys
from pathlib import Path
from random import Random

ROOT = Path(__file__).resolve().parent.parent
sys.path.append(str(ROOT / 'compare'))

from document01.damage import damaged
from document01.random_trees import random_tree
from document01.tree import render
from frames import Frames
from stack import LEVELS

CALLS = ROOT / 'crates' / 'test_calls'
WORK = 16384
ONES = 4294967295


def texts_of(frames: bytes) -> list[bytes]:
    """The texts that a file of frames makes."""
    texts: list[bytes] = []
    at = 0
    while at < len(frames):
        a, b = (int.from_bytes(frames[at + k:at + k + 4], 'little') for k in (1, 5))
        more = frames[at + 9:at + 9 + b]
        if frames[at:at + 1] == b't':
            texts.append(more)
        elif frames[at:at + 1] == b'r':
            texts[-1] += a * more
        at += 9 + (b if frames[at:at + 1] in (b't', b'r') else 0)
    return texts


# ---- random and damaged texts

def some_calls(frames: Frames, rng: Random) -> None:
    """Calls on the text, with buffers that may be too short and filled with anything."""
    frames.frame(b'c', rng.choice(8 * (WORK,) + (WORK + 16, WORK - 1, 0)), rng.getrandbits(32))
    frames.frame(rng.choice((b'p', b'q')), WORK, rng.choice((WORK, 70, 7, 6, 0)))
    frames.frame(b'm', rng.choice((0, 0, 1, 2, 5, ONES)), rng.choice((512, 183, 40, 20, 0)))
    frames.frame(b'n', rng.choice((0, 0, 1, 3, ONES)), 0)


def random_calls(seed: int, count: int) -> bytes:
    """So many texts, and calls on each."""
    rng, frames = Random(seed), Frames()
    known = [text for text in texts_of((CALLS / 'stdin').read_bytes()) if 0 < len(text) < 3000]
    frames.frame(b'v', 0, 0)
    for _ in range(count):
        text = rng.choice(known) if rng.random() < 0.5 else render(random_tree(rng, rng.randrange(1, 40)))
        for _ in range(rng.choice((0, 0, 1, 1, 2, 3))):
            text = damaged(rng, text) or b'\n'
        frames.take(rng.randbytes(rng.randrange(60)) if rng.random() < 0.03 else text)
        some_calls(frames, rng)
    return b''.join(frames.frames)


# ---- trees as deep as can be

# A level: what stands before the child that goes on, and what after it. Some are two levels at once.
Level = tuple[list[str], list[str]]

NAMES = ' '.join('p%d' % i for i in range(16))
STATEMENTS: dict[str, Level] = {
    'def': (['def 0 1 f 1'], []),
    'def, 16 parameters': (['def 0 1 f 1 ' + NAMES], []),
    'def, not the last': (['def 0 1 f 2'], ['pass 0 1']),
    'if': (['if 0 1 1 0 0', 'var 0 1 y'], []),
    'else': (['if 0 1 0 0 1', 'var 0 1 y'], []),
    'elif': (['if 0 1 0 1 0', 'var 0 1 y', 'elif 1', 'var 0 1 y'], []),
    'while': (['while 0 1 1', 'var 0 1 y'], []),
    'for': (['for 0 1 i 1', 'var 0 1 y'], []),
}
METHOD: Level = (['class 0 1 C 1 0', 'method m 1 ' + NAMES], [])
TO_EXPRESSIONS: dict[str, Level] = {
    'expr': (['expr 0 1'], []),
    'return': (['return 0 1'], []),
    'value': (['assign 0 1'], ['var 0 1 z']),
    'condition': (['while 0 1 0'], []),
    'iterable': (['for 0 1 i 0'], []),
    'target': (['assign 0 1', 'lit 0 1', 'index 0 1'], ['lit 0 1']),
    'attribute of a target': (['assign 0 1', 'lit 0 1', 'get 0 1 a'], []),
}
EXPRESSIONS: dict[str, Level] = {
    'lambda': (['lambda 0 1'], []),
    'lambda, 16 parameters': (['lambda 0 1 ' + NAMES], []),
    'call': (['call 0 1 0'], []),
    'argument': (['call 0 1 1', 'var 0 1 y'], []),
    'un': (['un 0 1'], []),
    'bin, left': (['bin 0 1'], ['var 0 1 y']),
    'bin, right': (['bin 0 1', 'var 0 1 y'], []),
    'index': (['index 0 1', 'var 0 1 y'], []),
    'get': (['get 0 1 a'], []),
    'list': (['list 0 1 1'], []),
    'tuple': (['tuple 0 1 1'], []),
    'set': (['set 0 1 1'], []),
    'treeset': (['treeset 0 1 1'], []),
    'dict, value': (['dict 0 1 1', 'var 0 1 y'], []),
}
TWO_LEVELS = ('class 0 1 C 1 0', 'if 0 1 0 1 0', 'assign 0 1')


def depth_of(level: Level) -> int:
    """How many levels one of these is: two where a line of its own stands between."""
    return 2 if level[0][0] in TWO_LEVELS and len(level[0]) > 1 else 1


def nested(levels: list[Level], leaf: str) -> bytes:
    """The text of levels one in the other, with a line in the innermost."""
    lines = ['tree 0 1'] + [line for before, _ in levels for line in before] + [leaf]
    lines += [line for _, after in reversed(levels) for line in after]
    return ''.join(line.replace(' ', '\t') + '\n' for line in lines).encode()


def filled(start: list[Level], more: Level, leaf: str) -> bytes:
    """Levels, and the same one again until the leaf is as deep as a line may be."""
    levels = list(start)
    while sum(map(depth_of, levels)) + depth_of(more) < LEVELS:
        levels.append(more)
    return nested(levels, leaf)


def deep_texts(seed: int, count: int) -> list[bytes]:
    """Each kind of level in itself, to the full depth, and so many mixed at random."""
    leaves = ('pass 0 1', 'var 0 1 q')
    texts = [filled([(['assign 0 1', 'lit 0 1'], [])], EXPRESSIONS['tuple'], leaves[1])]
    starts: list[list[Level]] = [[], [METHOD]]
    for start in starts:
        texts += [filled(start, one, leaves[0]) for one in STATEMENTS.values()]
        for first in TO_EXPRESSIONS.values():
            texts += [filled([*start, first], one, leaves[1]) for one in EXPRESSIONS.values()]
    rng = Random(seed)
    for _ in range(count):
        levels = rng.choices(list(STATEMENTS.values()), k=rng.randrange(20))
        levels.append(rng.choice(list(TO_EXPRESSIONS.values())))
        levels += rng.choices(list(EXPRESSIONS.values()), k=rng.randrange(10))
        texts.append(filled(levels, rng.choice(list(EXPRESSIONS.values())), leaves[1]))
    return texts


def deep_calls(seed: int, count: int) -> bytes:
    """Every call on each deep text, with the stack that it takes."""
    frames = Frames()
    frames.frame(b's', 1, 0)
    frames.frame(b'v', 0, 0)
    for text in deep_texts(seed, count):
        frames.take(text)
        frames.frame(b'c', WORK, ONES)
        frames.frame(b'p', WORK, WORK)
        frames.frame(b'm', 0, 512)
        frames.frame(b'n', 0, 0)
    return b''.join(frames.frames)
