"""The numbered sections of docs/DIFFERENCES.md, held against Python and `namecheck`.

Of each: that its tree text is the one that tree_of.py makes of its script (unless it says 'tree by
hand'), that Python does with the script and `namecheck` with the tree text what is written, and
that these say different things.  Besides, that the table at the head of the chapter says the same,
and that examples/oven.tree is the tree text of examples/oven.py.
"""

import re
from itertools import zip_longest
from pathlib import Path
from typing import NamedTuple

from tree_of import Unfit, tree_of

from .programs import namecheck_prints, python_ends

ROOT = Path(__file__).resolve().parent.parent.parent
CHAPTER = re.compile(r'\n## The Rust and Python\n(.*?)(?=\n## |\Z)', re.S)
SECTION = re.compile(
    r'(?P<number>\d+)\. (?P<title>[^\n]+) \(\d[\d., ]*\)\n'
    r'```python\n(?P<script>.*?)```\n```text\n(?P<text>.*?)```\n'
    r'Python: (?P<python>[^\n]+?)\. Here: (?P<here>[^\n]+)\.\n(?P<why>[^\n]*)', re.S)
# what Python does, and what is the same here: no fault, or one of these kinds
SAME = {'no error': ('none',), 'NameError': ('8', '9', '10'), 'UnboundLocalError': ('11', '12'),
        'SyntaxError': ('14',)}


class Section(NamedTuple):
    number: int
    title: str
    script: str
    text: str           # the tree text
    python: str         # how Python ends the script
    here: str           # the first fault of the tree text
    by_hand: bool       # whether the tree text was typed


class Chapter(NamedTuple):
    head: str
    sections: list[Section | str]       # a str is one that cannot be read


def section_of(part: str) -> Section | str:
    found = SECTION.match(part)
    if not found:
        return part
    return Section(int(found['number']), found['title'], found['script'], found['text'],
                   found['python'], found['here'], 'tree by hand' in found['why'].lower())


def chapter() -> Chapter:
    found = CHAPTER.search((ROOT / 'docs/DIFFERENCES.md').read_text('utf-8'))
    head, *parts = found[1].split('\n### ') if found else ['']
    return Chapter(head, [section_of(part) for part in parts])


def contents(sections: list[Section | str]) -> str:
    """The table at the head of the chapter: number, title, Python, and the kind here."""
    rows = ['| %d | %s | %s | %s |\n' % (one.number, one.title, one.python, one.here.split(' ')[0])
            for one in sections if isinstance(one, Section)]
    return '| no. | place | Python | here |\n|---|---|---|---|\n' + ''.join(rows)


# ------------------------------------------------------------------ what is wrong

def other(what: str, expected: str, found: str) -> list[str]:
    """Nothing, or what was expected and what was found."""
    return [] if expected == found else ['%s: expected %r, found %r' % (what, expected, found)]


def other_text(what: str, expected: str, found: str) -> list[str]:
    """The same of a text, for its first line that is another."""
    pairs = zip_longest(expected.splitlines(), found.splitlines(), fillvalue='')
    for number, (line, made) in enumerate(pairs, 1):
        if line != made:
            return other('%s, line %d' % (what, number), line, made)
    return other(what, expected, found)


def tree_text(script: str, *names: str) -> str:
    try:
        return tree_of(script, names).decode('ascii')
    except (Unfit, SyntaxError) as error:
        return str(error)


def first_fault(namecheck: str, text: str) -> str:
    """The first fault that `namecheck` prints, as the document writes it."""
    printed = namecheck_prints(namecheck, text.encode('utf-8'))
    word, *fields = printed.decode('latin-1').split('\n')[0].split('\t')
    if word == 'fault' and len(fields) == 4:
        return '%s at %s to %s, %s' % tuple(fields)
    return 'none' if printed == b'faults\t0\n' else repr(printed)


def wrong_in_section(number: int, section: Section, namecheck: str) -> list[str]:
    wrong = other('number', str(number), str(section.number))
    if not section.by_hand:
        wrong += other_text('tree text', section.text, tree_text(section.script))
    python, here = python_ends(section.script), first_fault(namecheck, section.text)
    wrong += other('Python', section.python, python)
    wrong += other('here', section.here, here)
    if here.split(' ')[0] in SAME.get(python, ()):
        wrong.append('no difference: Python %r, here %r' % (python, here))
    return wrong


def wrong_in_head(found: Chapter) -> list[str]:
    expected = contents(found.sections)
    if expected in found.head:
        return []
    rows = {row.split('|')[1]: row for row in found.head.splitlines() if row.startswith('|')}
    wrong = []
    for row in expected.splitlines():
        wrong += other('row', row, rows.get(row.split('|')[1], ''))
    return wrong or ['expected the rows in the order of the sections and no others']


def wrong_in_oven() -> list[str]:
    oven = ROOT / 'examples/oven.py'
    written = oven.with_suffix('.tree').read_bytes().decode('latin-1')
    return other_text('tree text', written, tree_text(oven.read_text('utf-8'), 'port', 'vials'))


def hold_sections(namecheck: str) -> bool:
    """Holds everything against Python and `namecheck`, and prints what is wrong, and where."""
    found = chapter()
    wrong = {'the table at the head of the chapter': wrong_in_head(found),
             'examples/oven.tree': wrong_in_oven()}
    for number, section in enumerate(found.sections, 1):
        if isinstance(section, Section):
            title = 'section %d (%s)' % (number, section.title)
            wrong[title] = wrong_in_section(number, section, namecheck)
        else:
            wrong['section %d' % number] = [
                'expected a section, found %r' % section.split('\n')[0]]
    for title, words in wrong.items():
        for one in words:
            print('WRONG %s: %s' % (title, one))
    count = sum(bool(words) for words in wrong.values())
    print('%d sections, %d wrong' % (len(found.sections), count))
    return bool(found.sections) and not count
