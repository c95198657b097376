#!/usr/bin/env python3
"""Holds what docs/DIFFERENCES.md says about Python against Python and NAMECHECK, the built program,
by running both."""

import argparse
import sys

from differences.sections import chapter, contents, hold_sections
from differences.spelling import hold_spelling


def main() -> int:
    parser = argparse.ArgumentParser(description=__doc__)
    commands = parser.add_subparsers(dest='command', required=True)
    commands.add_parser('contents', help='prints the table that has to stand at the head of the '
                        'chapter')
    for name, what in (('sections', "each section's script and tree text, by Python and NAMECHECK"),
                       ('spelling', 'which byte strings NAMECHECK takes as names')):
        commands.add_parser(name, help=what).add_argument('namecheck', metavar='NAMECHECK')
    given = parser.parse_args()
    if given.command == 'contents':
        print(contents(chapter().sections), end='')
        return 0
    hold = hold_sections if given.command == 'sections' else hold_spelling
    return 0 if hold(given.namecheck) else 1


if __name__ == '__main__':
    sys.exit(main())
