#!/usr/bin/env python3
"""Random Python scripts, run by Python and judged by the independent reading of document 01
(document01/), read by read.

Python runs a script with each read marked: which were made, and which one failed.  A read that was
made and has a fault, one that failed and has none or one of another kind, and one with a fault
that never ran part Python from the Rust.  Each is put under sections of docs/DIFFERENCES.md by what
stands where; what fits none is shown, the shortest script first.
"""

import argparse
import random
import re
import sys
from collections import Counter

from differences.marked_run import Run
from differences.parting import sections
from differences.random_scripts import random_script


def search(count: int, seed: int) -> int:
    rng = random.Random(seed)
    tally: Counter[str | None] = Counter()
    odd: list[str] = []
    runs = 0
    for _ in range(count):
        script = random_script(rng)
        while script:       # a literal takes the place of the read that failed, and it runs again
            run, runs = Run(script), runs + 1
            found = sections(script, run)
            tally.update(found)
            odd += [script] * (None in found)
            script = ('' if run.failed is None else
                      script[:run.failed] + re.sub(r'^\w+', '0', script[run.failed:]))
    for where, number in tally.most_common():
        print('%8d  %s' % (number, where or 'NO SECTION'))
    print('%d scripts, %d runs, %d without a section' % (count, runs, len(odd)))
    print('\n'.join(sorted(odd, key=len)[:3]), end='')
    return 1 if odd else 0


def main() -> int:
    parser = argparse.ArgumentParser(description=__doc__,
                                     formatter_class=argparse.RawDescriptionHelpFormatter)
    parser.add_argument('count', metavar='COUNT', type=int, nargs='?', default=10000,
                        help='how many scripts (%(default)s)')
    parser.add_argument('seed', metavar='SEED', type=int, nargs='?', default=1,
                        help='of the draws (%(default)s)')
    given = parser.parse_args()
    return search(given.count, given.seed)


if __name__ == '__main__':
    sys.exit(main())
