#!/usr/bin/env python3
"""Prints what `namecheck` has to print for a tree text, by the independent reading of document 01
(document01/).

    print_answer.py < TEXT
"""

import argparse
import sys

from document01.answers import printed

if __name__ == '__main__':
    argparse.ArgumentParser(description=__doc__,
                            formatter_class=argparse.RawDescriptionHelpFormatter).parse_args()
    sys.stdout.buffer.write(printed(sys.stdin.buffer.read()))
