"""What the machine code of an object does to the stack: for each function how deep it goes, and how deep it is at each
call. Read from `llvm-objdump -d -r`, with the stack pointer followed along every way through a function.

What is not understood is an error: a change of the stack pointer other than by a known number, a call of an address,
code that nothing leads to, two ways that meet at different depths, a return at another depth than that of the entry.
A jump through a table stays in its function (ir.py sees that no function is used but to be called), and what only such
jumps lead to is at their depth.

WebAssembly has no stack pointer; what has an address is on a stack in its memory, below the global `__stack_pointer`.
Calls and locals are on the engine's own stack, which no object knows.
"""

import re
import subprocess
from dataclasses import dataclass, field
from pathlib import Path

from instructions import Instruction, Step, Unknown, entry, fills, step


@dataclass
class Function:
    """Bytes below the stack pointer of the caller: the most that are reached, and those at each call of a function."""

    name: str
    deepest: int = 0
    calls: set[tuple[str, int]] = field(default_factory=set)


@dataclass
class Listing:
    """A function as the disassembler prints it."""

    name: str
    section: str
    code: list[Instruction] = field(default_factory=list)


# ---- reading what the disassembler prints

SECTION = re.compile(r'Disassembly of section (.*):')
SYMBOL = re.compile(r'[0-9a-f]+ <(.*)>:')
CODE = re.compile(r' *([0-9a-f]+):\s+(\S+)(?:\s+(.*?))?\s*(?:\s[#@] .*)?')
RELOCATION = re.compile(r'\s+[0-9a-f]+:\s+(R_\w+)\s+(.*?)(?:[-+](?:0x)?[0-9a-f]+)?\s*')
DATA, LABEL = re.compile(r'\$d(\..*)?'), re.compile(r'\$[atx](\..*)?|\.L.*|CODE')
OTHER = re.compile(r'|.*:\s+file format .*|\s+\.local .*|\s+# .*')


def disassembled(file: Path) -> str:
    """What the disassembler prints of an object or an archive."""
    command = ['llvm-objdump', '-d', '-r', '--no-show-raw-insn', str(file)]
    return subprocess.run(command, check=True, capture_output=True, text=True).stdout


def listings(text: str) -> list[Listing]:
    """The functions of a disassembly, without the tables that stand between their instructions."""
    found: list[Listing] = []
    section, data = '', False
    for line in text.splitlines():
        if heading := SECTION.fullmatch(line):
            section = heading[1]
        elif symbol := SYMBOL.fullmatch(line):
            data = bool(DATA.fullmatch(symbol[1]))
            if not data and not LABEL.fullmatch(symbol[1]):
                found.append(Listing(symbol[1], section))
        elif relocation := RELOCATION.fullmatch(line):
            if not data:
                found[-1].code[-1].names.append(relocation[2])
            elif relocation[2] not in (found[-1].section, found[-1].name):
                raise Unknown('%s: a table with %s' % (found[-1].name, relocation[2]))
        elif not data and (code := CODE.fullmatch(line)):
            found[-1].code.append(Instruction(int(code[1], 16), code[2], code[3] or ''))
        elif not data and not OTHER.fullmatch(line):
            raise Unknown('the disassembler prints: %s' % line)
    return found


def paired(listing: Listing) -> Listing:
    """With a name for the second half of a far call: that of the `auipc` before it, or of the function itself."""
    for one, other in zip(listing.code, listing.code[1:]):
        if one.name == 'auipc' and other.name in ('jalr', 'jr'):
            other.names += one.names
            match = re.fullmatch(r'\w+, (\d+) (-?\d+)\(\w+\)', '%s %s' % (one.operands, other.operands))
            if match and (one.address + 4096 * int(match[1]) + int(match[2])) % 2 ** 32 == listing.code[0].address:
                other.names.append(listing.name)
    return listing


# ---- following the stack pointer

class Follow:
    """Follows the stack pointer through a function."""

    def __init__(self, machine: str, listing: Listing, sections: dict[str, str]) -> None:
        self.machine, self.code, self.sections = machine, listing.code, sections
        self.function = Function(listing.name, entry(machine))
        self.at = {one.address: index for index, one in enumerate(listing.code)}
        self.depths: dict[int, int] = {}
        self.tables: set[int] = set()

    def fail(self, one: Instruction, why: str) -> Unknown:
        return Unknown('%s: %x: %s %s: %s' % (self.function.name, one.address, one.name, one.operands, why))

    def all(self) -> Function:
        """Every way, from the entry and from what only tables lead to."""
        self.along(0, entry(self.machine))
        while (lost := self.unreached()) is not None:
            if len(self.tables) != 1:
                raise self.fail(self.code[lost], 'tables at several depths' if self.tables else 'nothing leads here')
            self.along(lost, min(self.tables))
        return self.function

    def unreached(self) -> int | None:
        """The first instruction that no way has led to."""
        return next((index for index, one in enumerate(self.code)
                     if index not in self.depths and not fills(self.machine, one)), None)

    def along(self, start: int, depth: int) -> None:
        """All ways from an instruction."""
        todo = [(start, depth)]
        while todo:
            index, depth = todo.pop()
            if index not in self.depths:
                self.depths[index] = depth
                todo += self.after(index, depth)
            elif self.depths[index] != depth:
                raise self.fail(self.code[index], 'reached at depths %d and %d' % (self.depths[index], depth))

    def after(self, index: int, depth: int) -> list[tuple[int, int]]:
        """What may come after an instruction, and the depth there."""
        one = self.code[index]
        try:
            does = step(self.machine, one)
        except Unknown as why:
            raise self.fail(one, str(why)) from None
        self.note(one, does, depth)
        ways = []
        if does.jumps is not None:
            if does.jumps not in self.at:
                raise self.fail(one, 'leads out of the function')
            ways.append((self.at[does.jumps], depth + does.deeper))
        if does.goes_on:
            if index + 1 == len(self.code):
                raise self.fail(one, 'the code ends here')
            ways.append((index + 1, depth if does.leaves else depth + does.deeper))
        return ways

    def note(self, one: Instruction, does: Step, depth: int) -> None:
        """Keeps how deep an instruction reaches, and what it calls."""
        then, start = depth + does.deeper, entry(self.machine)
        self.function.deepest = max(self.function.deepest, then, depth + does.below)
        if does.leaves and then != start:
            raise self.fail(one, 'leaves at depth %d' % then)
        if does.calls is not None:
            name = self.sections.get(does.calls, does.calls)
            self.function.calls.add((name, then - start if does.leaves else then))
        if does.table:
            self.tables.add(depth)


# ---- WebAssembly

POINTER = '__stack_pointer'
TAKEN = re.compile(r'global.get %s \| i32.const (\d+) \| i32.sub  \| local.tee (\d+)' % POINTER)


def left_below(listing: Listing, code: list[str]) -> int:
    """How deep a function goes that leaves the global as it is: one that calls nothing may keep bytes below it."""
    gets = [index for index, one in enumerate(code) if one == 'global.get ' + POINTER]
    if not gets:
        return 0
    taken = TAKEN.fullmatch(' | '.join(code[gets[0]:gets[0] + 4]))
    if len(gets) != 1 or not taken or any('call' in one for one in code):
        raise Unknown('%s: what it does below %s' % (listing.name, POINTER))
    return int(taken[1])


def in_memory(listing: Listing) -> Function:
    """A function of WebAssembly: it takes its frame once, from the global, and gives it back."""
    function = Function(listing.name)
    code = ['%s %s' % (one.name, (one.names or [one.operands])[0]) for one in listing.code]
    sets = [index for index, one in enumerate(code) if one == 'global.set ' + POINTER]
    local = ''
    for index in sets:
        before = ' | '.join(code[max(index - 4, 0):index])
        taken = TAKEN.fullmatch(before)
        if taken and not local and index < 5:
            function.deepest, local = int(taken[1]), taken[2]
        elif not local or not before.endswith('local.get %s | i32.const %d | i32.add ' % (local, function.deepest)):
            raise Unknown('%s: %s' % (listing.name, before))
    if sum(one in ('local.tee ' + local, 'local.set ' + local) for one in code) != (1 if local else 0):
        raise Unknown('%s: where its frame is changes' % listing.name)
    if not sets:
        function.deepest = left_below(listing, code)
    for one in code:
        name, _, operand = one.partition(' ')
        if name == 'call':
            function.calls.add((operand, function.deepest))
        elif 'call' in name:
            raise Unknown('%s: %s' % (listing.name, one))
    return function


def functions(machine: str, text: str) -> dict[str, Function]:
    """The functions of a disassembly."""
    found = listings(text)
    if machine == 'wasm32':
        return {one.name: in_memory(one) for one in found}
    sections = {one.section: one.name for one in found}
    if len(sections) != len(found):
        raise Unknown('two functions in one section')
    return {one.name: Follow(machine, paired(one), sections).all() for one in found}
