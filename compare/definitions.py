#!/usr/bin/env python3
"""Compares the definitions (specs/ of the crates spec_text, spec_faults and spec_answers) with the
independent reading of document 01 (document01/).

Of each text: the reading or its refusal, the full report, places and reads, messages, the Rust
walk's answer, the walk that lists everything; the answers of check, report, message and name,
also where the output is too short; and what `namecheck` prints.  Tables of texts with the answers
that document01/ expects are written into a copy of the crates, and each is proved by refl with
`rt check` in the topmost, spec_answers.
"""

import argparse
import random
import re
import shutil
import subprocess
import sys
import tempfile
import time
from collections import Counter
from pathlib import Path
from typing import NamedTuple

from definition_tables.terms import module, outcome, wrong_module
from document01.damage import damaged
from document01.faults import faults
from document01.random_trees import random_tree
from document01.reader import Refusal, read
from document01.tree import render
from definition_tables.edge_texts import edge_texts

ROOT = Path(__file__).resolve().parent.parent
CONTROL = b'tree\t0\t0\n'
PER_BATCH = 20
PER_RUN = 200


class Proof(NamedTuple):
    holds: bool
    output: str         # of rt
    seconds: float


class Crates:
    """A copy of the crates, with the comparison in place of the proofs of the topmost."""

    def __init__(self, folder: Path) -> None:
        self.folder = folder
        lines = [line for line in (ROOT / 'crates.txt').read_text().splitlines(keepends=True)
                 if line.startswith('spec_')]
        for crate in ('spec_text', 'spec_faults', 'spec_answers'):
            shutil.copytree(ROOT / 'crates' / crate, folder / 'crates' / crate)
        (folder / 'crates.txt').write_text(''.join(lines))
        self.topmost = folder / 'crates/spec_answers'
        self.proofs = self.topmost / 'proofs'
        shutil.rmtree(self.proofs)
        self.proofs.mkdir()
        (self.proofs / 'Lib.antt').write_text('pub mod Compare\n', 'utf-8')

    def prove(self, source: str) -> Proof:
        """Whether all declarations of the module are proved."""
        (self.proofs / 'Compare.antt').write_text(source, 'utf-8')
        start = time.time()
        done = subprocess.run(['rt', 'check'], cwd=self.topmost, capture_output=True, text=True)
        output = done.stdout + done.stderr
        holds = done.returncode == 0 and 'logic=proved ' in output
        checked = re.search(r'crate spec_answers: modules loaded=\d+ checked=[1-9]', output)
        if holds and not checked:
            raise SystemExit('nothing was checked: ' + output)
        return Proof(holds, output, time.time() - start)

    def control(self) -> None:
        """Ends the program unless what is right is proved and what is wrong is not."""
        right = self.prove(module([[CONTROL]]))
        if not right.holds:
            raise SystemExit('the control fails: ' + right.output[-2000:])
        if self.prove(wrong_module(CONTROL)).holds:
            raise SystemExit('the control fails: a wrong answer is proved')

    def failing(self, texts: list[bytes]) -> list[bytes]:
        """The texts that have other answers, by halves."""
        if self.prove(module([texts])).holds:
            return []
        if len(texts) == 1:
            return texts
        half = len(texts) // 2
        return self.failing(texts[:half]) + self.failing(texts[half:])


def compare(crates: Crates, texts: list[bytes]) -> list[bytes]:
    """The texts that have other answers."""
    crates.control()
    different = []
    for at in range(0, len(texts), PER_RUN):
        part = texts[at:at + PER_RUN]
        batches = [part[i:i + PER_BATCH] for i in range(0, len(part), PER_BATCH)]
        proof = crates.prove(module(batches))
        print('%d to %d: %s, %.1f s' % (at, at + len(part), 'proved' if proof.holds
                                       else 'NOT PROVED', proof.seconds), flush=True)
        if not proof.holds:
            print(proof.output[-1500:])
            for batch in batches:
                for text in crates.failing(batch):
                    different.append(text)
                    print('FAILS', len(text), text, 'expected', outcome(text), flush=True)
    if different:
        print('SMALLEST', min(different, key=len))
    return different


def random_texts(count: int, seed: int) -> list[bytes]:
    """Random trees, and damaged copies of them."""
    rng = random.Random(seed)
    texts: list[bytes] = []
    while len(texts) < count:
        text = render(random_tree(rng, rng.randrange(3, 40)))
        texts.append(text)
        if rng.random() < 0.4:
            texts.append(damaged(rng, text))
    return texts[:count]


def tally(texts: list[bytes]) -> list[tuple[tuple[str, int], int]]:
    """How many refusals there are of each number, and faults of each kind."""
    found: Counter[tuple[str, int]] = Counter()
    for text in texts:
        tree = read(text)
        if isinstance(tree, Refusal):
            found['refused', tree.number] += 1
        else:
            found.update([('kind', fault.kind) for fault in faults(tree)] or [('none', 0)])
    return sorted(found.items())


def texts_of_arguments() -> list[bytes]:
    parser = argparse.ArgumentParser(description=__doc__,
                                     formatter_class=argparse.RawDescriptionHelpFormatter)
    commands = parser.add_subparsers(dest='command', required=True)
    commands.add_parser('edge-texts', help='numbers, names and parameters at their limits, stray '
                        'bytes, each word where each sort is due, depths round the limit')
    trees = commands.add_parser('random-texts', help='random trees, and damaged copies of them')
    trees.add_argument('count', metavar='COUNT', type=int, help='how many texts')
    trees.add_argument('seed', metavar='SEED', type=int, help='of the draws')
    files = commands.add_parser('files', help='tree texts from files')
    files.add_argument('files', metavar='FILE', type=Path, nargs='+')
    given = parser.parse_args()
    if given.command == 'edge-texts':
        return edge_texts()
    if given.command == 'random-texts':
        return random_texts(given.count, given.seed)
    paths: list[Path] = given.files
    return [path.read_bytes() for path in paths]


def main() -> int:
    texts = texts_of_arguments()
    print('%d texts, %d lines; %s'
          % (len(texts), sum(text.count(b'\n') for text in texts), tally(texts)))
    start = time.time()
    with tempfile.TemporaryDirectory(prefix='definitions') as folder:
        different = compare(Crates(Path(folder)), texts)
    print('%d texts compared, %d differ, %.0f s'
          % (len(texts), len(different), time.time() - start))
    return 1 if different else 0


if __name__ == '__main__':
    sys.exit(main())
