#!/usr/bin/env python3
"""Builds the library for boards from the proved code's own LLVM IR, and runs it there. Python 3.11, no other library.

    targets/make.py [NAME..]            builds, replays, computes the stack; prints the tables. NAME: x86-64, thumbv7em, ..
    targets/make.py --frames [NAME..]   prints the functions with the largest frames too, and the deepest chain of calls
    targets/make.py --write             writes the tables to docs/TARGETS.md
    targets/make.py --check             whether docs/TARGETS.md has these tables

For each target the replay, a C program with no library beside it (replay.c), is linked with the library and has to
write the same bytes as crates/test_calls on its frames, and the same as on x86-64 on random, damaged and deep texts.
The stack of each call is computed from the machine code (stack.py), and measured on the deep texts: never more than is
computed. The libraries are then in target/targets/.

The status is 1 if something differs, or is not to be had. docs/TARGETS.md says what has to be installed.
"""

import sys
from dataclasses import dataclass
from pathlib import Path

import boards
import ir
import machine
import stack
import texts
from boards import NATIVE, Board
from instructions import Unknown
from ir import Failed, ran

PAGE = ir.ROOT / 'docs' / 'TARGETS.md'
CALLS = ('check', 'report', 'message', 'name', 'version')
REPLAYED = ('those of `test_calls`', 'random and damaged', 'as deep as can be')
SEED, RANDOM, DEEP = 1, 1500, 200


@dataclass
class Frames:
    """What is replayed: the frames of the gate with their lines, random and deep ones with those of x86-64."""

    gate: bytes
    lines: bytes
    others: list[bytes]
    native: list[bytes]

    def counts(self) -> list[int]:
        """How many calls there are of each."""
        return [len(without_stack(lines)) for lines in [self.lines] + self.native]


@dataclass
class Found:
    """What came of a target."""

    board: Board
    text: int
    bounds: stack.Bounds
    measured: dict[str, int]

    def computed(self, call: str) -> int:
        return self.bounds.bound('serduzhap_' + call)


def without_stack(lines: bytes) -> list[bytes]:
    """The lines that are the same on every target."""
    return [line for line in lines.splitlines() if not line.startswith(b'stack\t')]


def first_difference(name: str, what: str, lines: list[bytes], others: list[bytes]) -> None:
    """Fails where two lists of lines are not the same."""
    if lines != others:
        same = [one == other for one, other in zip(lines, others)]
        at = same.index(False) if False in same else len(same)
        raise Failed('%s: %s: line %d is %r and not %r' % (name, what, at + 1, lines[at:at + 1], others[at:at + 1]))


def stack_lines(lines: bytes) -> dict[str, int]:
    """The most stack that was measured for each call."""
    most: dict[str, int] = {}
    for line in lines.decode(errors='replace').splitlines():
        if line.startswith('stack\t'):
            _, call, count = line.split('\t')
            most[call] = max(most.get(call, 0), int(count))
    return most


def replayed(board: Board, command: list[str], frames: Frames) -> dict[str, int]:
    """Replays everything; what was measured."""
    written = ran(command, frames.gate)
    first_difference(board.name, 'frames of the gate', written.splitlines(), frames.lines.splitlines())
    if written != frames.lines:
        raise Failed('%s: other bytes at the end of a line' % board.name)
    most: dict[str, int] = {}
    for given, native in zip(frames.others, frames.native):
        written = ran(command, given)
        first_difference(board.name, 'random and deep texts', without_stack(written), without_stack(native))
        most |= stack_lines(written)
    return most


def compared(found: Found) -> None:
    """Fails if more stack was measured than is computed."""
    for call in CALLS:
        if found.measured[call] > found.computed(call):
            raise Failed('%s: %s took %d bytes of stack, and %d are computed'
                         % (found.board.name, call, found.measured[call], found.computed(call)))


def functions_of(board: Board, archive: Path) -> dict[str, machine.Function]:
    """How deep the functions of a library go; for a board, held against what the compiler says of its frames."""
    functions = machine.functions(board.machine, machine.disassembled(archive))
    if board is not NATIVE:
        deepest = {name: one.deepest for name, one in functions.items()}
        if deepest != boards.compiler_frames(board):
            raise Failed('%s: the frames in the machine code are not those of -fstack-usage' % board.name)
    return functions


def tried(board: Board, archive: Path, frames: Frames) -> Found:
    """Runs a target, and computes its stack."""
    if names := boards.unexpected(archive):
        raise Failed('%s: needs %s' % (board.name, ', '.join(names)))
    measured = replayed(board, boards.build_replay(board, archive), frames)
    found = Found(board, boards.text_size(archive), stack.Bounds(functions_of(board, archive)), measured)
    compared(found)
    return found


def frames_of(archive: Path) -> Frames:
    """What is replayed, with the lines of x86-64."""
    command = boards.build_replay(NATIVE, archive)
    others = [texts.random_calls(SEED, RANDOM), texts.deep_calls(SEED, DEEP)]
    native = [ran(command, given) for given in others]
    for lines in native:
        if b'wrong: ' in lines:
            raise Failed('x86-64: %r' % next(line for line in lines.splitlines() if b'wrong: ' in line))
    return Frames((texts.CALLS / 'stdin').read_bytes(), (texts.CALLS / 'stdout').read_bytes(), others, native)


def module_in(kit: ir.Kit, archive: Path) -> Path:
    """The file of the module that the targets are built from."""
    module = ir.module_of(kit, archive)
    if wrong := ir.complaints(module):
        raise Failed('the module has\n  ' + '\n  '.join(wrong))
    file = ir.MADE / 'portable.ll'
    file.write_text(ir.portable(module))
    return file


# ---- what is printed

def table(heads: list[str], rows: list[list[str]]) -> list[str]:
    return ['| %s |' % ' | '.join(heads), '|%s' % ('---|' * len(heads))] + ['| %s |' % ' | '.join(row) for row in rows]


def tables(all_found: list[Found], frames: Frames) -> dict[str, list[str]]:
    """The tables of the page."""
    calls = [[what, format(count, ',')] for what, count in zip(REPLAYED, frames.counts())]
    sizes = [[one.board.title, '`%s`' % one.board.shown, format(one.text, ','), 'all the same'] for one in all_found]
    stacks = [[one.board.title]
              + ['%s / %s' % (format(one.computed(call), ','), format(one.measured[call], ',')) for call in CALLS]
              + [format(one.bounds.level('serduzhap_check'), ',')] for one in all_found]
    return {'calls': table(['texts', 'calls'], calls),
            'sizes': table(['target', 'flags', 'text, bytes', 'answers'], sizes),
            'stack': table(['target', *CALLS, 'a level'], stacks)}


def on_page(page: str, name: str, rows: list[str] | None) -> tuple[str, list[str]]:
    """The page with rows in place of a table's, if there are any, and the rows that it has."""
    opening, closing = '<!-- %s -->\n' % name, '<!-- /%s -->' % name
    before, found, rest = page.partition(opening)
    shown, ended, after = rest.partition(closing)
    if not found or not ended:
        raise Failed('docs/TARGETS.md has no table %s' % name)
    text = shown if rows is None else '\n'.join(rows) + '\n'
    return before + opening + text + closing + after, shown.splitlines()


def paged(made: dict[str, list[str]], write: bool) -> None:
    """Writes the tables to the page, or fails if it has others."""
    page = PAGE.read_text()
    for name, rows in made.items():
        page, shown = on_page(page, name, rows if write else None)
        if not write and shown != rows:
            raise Failed('docs/TARGETS.md: its table %s is another; targets/make.py --write writes it' % name)
    if write:
        PAGE.write_text(page)


def promised(native: Found) -> None:
    """Fails if the header names less stack than is computed."""
    most, named = max(map(native.computed, CALLS)), stack.named_stack()
    if most > named:
        raise Failed('include/serduzhap.h: SERDUZHAP_STACK is %d, and a call may take %d' % (named, most))


def say(words: str) -> None:
    print(words, flush=True)


def run(wanted: list[str], show_frames: bool) -> tuple[list[Found], Frames]:
    """All targets, or those of the given names."""
    chosen = [board for board in boards.BOARDS if not wanted or board.name in wanted]
    if lost := boards.missing([NATIVE] + chosen):
        raise Failed('not installed: ' + ', '.join(lost))
    ir.MADE.mkdir(parents=True, exist_ok=True)
    kit, archive = ir.Kit(), ir.archive_of_rt()
    module = module_in(kit, archive)
    say('the module is had; the archive made beside it is that of tools/staticlib, bit for bit')
    frames = frames_of(archive)
    all_found = []
    for board in [NATIVE] + chosen:
        library = archive if board is NATIVE else boards.build_library(kit, board, module)
        all_found.append(tried(board, library, frames))
        say('%s: %d calls, all the same' % (board.title, sum(frames.counts())))
        if show_frames:
            say(all_found[-1].bounds.report(['serduzhap_' + call for call in CALLS]))
    promised(all_found[0])
    return all_found, frames


def main() -> int:
    options = [word for word in sys.argv[1:] if word.startswith('-')]
    wanted = [word for word in sys.argv[1:] if not word.startswith('-')]
    known = {board.name for board in [NATIVE] + boards.BOARDS}
    page = {'--write', '--check'} & set(options)
    if set(options) - {'--frames', '--write', '--check'} or set(wanted) - known or page and wanted:
        print(__doc__)
        return 2
    try:
        made = tables(*run(wanted, '--frames' in options))
        for rows in made.values():
            say('\n' + '\n'.join(rows))
        if page:
            paged(made, '--write' in page)
    except (Failed, Unknown) as why:
        print('FAILED: %s' % why, file=sys.stderr)
        return 1
    return 0


if __name__ == '__main__':
    sys.exit(main())
