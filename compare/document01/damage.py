"""A text with one damage.

What is drawn, and in which order, may not change: the texts that the gate replays are made
from it."""

from random import Random


def damaged(rng: Random, text: bytes) -> bytes:
    """Cut, or a byte changed, or a line doubled or dropped, or two lines swapped."""
    choice = rng.randrange(5)
    if choice == 0:
        return text[:rng.randrange(len(text))]
    if choice == 1:
        at = rng.randrange(len(text))
        byte = rng.choice(b'\t\n019azAZ_ -+\r\x00\x7f\x80\xff"\\')
        return text[:at] + bytes([byte]) + text[at + 1:]
    lines = text.splitlines(keepends=True)
    at = rng.randrange(len(lines))
    if choice == 2:
        lines.insert(at, lines[at])
    elif choice == 3:
        del lines[at]
    else:
        other = rng.randrange(len(lines))
        lines[at], lines[other] = lines[other], lines[at]
    return b''.join(lines)
