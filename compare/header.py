"""The named numbers of include/serduzhap.h: what C is told, and so what the replayed answers are held against."""

import re
from pathlib import Path

HEADER = Path(__file__).resolve().parent.parent / 'include' / 'serduzhap.h'
NUMBER = re.compile(r'^#define SERDUZHAP_(\w+) (\d+)\b', re.M)


def constants() -> dict[str, int]:
    """Each name, without SERDUZHAP_, and its number."""
    return {name: int(number) for name, number in NUMBER.findall(HEADER.read_text('ascii'))}
