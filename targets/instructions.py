"""What one instruction does to the stack pointer and where it may go next, for each kind of machine.

An instruction that could change the stack pointer, or leave the function, in a way that is not listed here is an error.
The operands are those that `llvm-objdump` prints.
"""

import re
from dataclasses import dataclass, field
from typing import Callable


class Unknown(Exception):
    """Something that the reading of the machine code does not cover."""


@dataclass
class Instruction:
    """A line of the disassembly, with the names that its relocations give."""

    address: int
    name: str
    operands: str
    names: list[str] = field(default_factory=list)


@dataclass
class Step:
    """What an instruction does. It leaves a function by a return, or by a jump to another function."""

    deeper: int = 0             # bytes that the stack pointer goes down
    below: int = 0              # bytes below the stack pointer that it touches without moving it
    calls: str | None = None    # the function that it calls or jumps to
    jumps: int | None = None    # the address in the function that it jumps to
    table: bool = False         # it jumps within the function, by a table
    leaves: bool = False
    goes_on: bool = True        # to the next instruction, perhaps


NUMBER = r'(-?(?:0x[0-9a-f]+|\d+))'
CHANGES = 'changes the stack pointer'


def number(text: str) -> int:
    return int(text, 0)


def lowest(offsets: list[str]) -> int:
    """How far below the stack pointer the lowest of some offsets from it is."""
    return max([0] + [-number(offset) for offset in offsets])


def called(one: Instruction) -> str:
    """The function that a call names, by its relocation or as the start of an address."""
    if one.names:
        return one.names[0]
    match = re.search(r'<([^+]*)>$', one.operands)
    if not match:
        raise Unknown('calls no function')
    return match[1]


def jump(one: Instruction, always: bool) -> Step:
    """A jump: to another function if a relocation names one."""
    if one.names:
        return Step(calls=one.names[0], leaves=True, goes_on=not always)
    match = re.search(r'(?:^|[ ,])(0x[0-9a-f]+) <.*>$', one.operands)
    if not match:
        raise Unknown('jumps nowhere')
    return Step(jumps=int(match[1], 16), goes_on=not always)


def traps(one: Instruction) -> bool:
    """Whether it stands where nothing ever comes, and stops the program."""
    return re.sub(r'\.[wn]$', '', one.name) in ('ud2', 'brk', 'udf', 'trap', 'unimp')


# ---- x86-64, as AT&T writes it: the destination comes last

def x86_64(one: Instruction) -> Step:
    if one.name == 'pushq':
        return Step(deeper=8)
    if one.name == 'popq' and one.operands != '%rsp':
        return Step(deeper=-8)
    if one.name in ('subq', 'addq') and (match := re.fullmatch(r'\$%s, %%rsp' % NUMBER, one.operands)):
        return Step(deeper=number(match[1]) if one.name == 'subq' else -number(match[1]))
    if one.name == 'callq' and '*' not in one.operands:
        return Step(calls=called(one))
    if one.name == 'retq' and not one.operands:
        return Step(leaves=True, goes_on=False)
    if one.name.startswith('jmp') and '*' in one.operands and not one.names:
        return Step(table=True, goes_on=False)
    if one.name.startswith('j'):
        return jump(one, one.name.startswith('jmp'))
    if re.match(r'push|pop|leave|enter|call|ret|iret|int|sys|xchg', one.name):
        raise Unknown(CHANGES)
    if re.search(r'%(rsp|esp|sp|spl)\b', re.sub(r'^%rsp, |\([^)]*\)', '', one.operands)):
        raise Unknown(CHANGES)
    return Step(below=lowest(re.findall(NUMBER + r'\(%rsp', one.operands)))


# ---- AArch64

def aarch64(one: Instruction) -> Step:
    if one.name in ('sub', 'add') and (match := re.fullmatch(r'sp, sp, #%s(, lsl #12)?' % NUMBER, one.operands)):
        bytes_ = number(match[1]) << (12 if match[2] else 0)
        return Step(deeper=bytes_ if one.name == 'sub' else -bytes_)
    if match := re.search(r'\[sp, #%s\]!$|\[sp\], #%s$' % (NUMBER, NUMBER), one.operands):
        return Step(deeper=-number(match[1] or match[2]))
    if one.name == 'ret' and not one.operands:
        return Step(leaves=True, goes_on=False)
    if one.name == 'bl':
        return Step(calls=called(one))
    if one.name == 'br':
        return Step(table=True, goes_on=False)
    if one.name in ('cbz', 'cbnz', 'tbz', 'tbnz') or re.fullmatch(r'b(\.\w+)?', one.name):
        return jump(one, one.name == 'b')
    if re.match(r'bl|br|ret|eret|svc|hvc', one.name) or re.match(r'w?sp\b|.*\[sp(\], |.*\]!)', one.operands):
        raise Unknown(CHANGES)
    return Step(below=lowest(re.findall(r'\[sp, #' + NUMBER, one.operands)))


# ---- ARM, A32 and Thumb: most instructions may have a condition

CONDITION = r'(eq|ne|hs|cs|lo|cc|mi|pl|vs|vc|hi|ls|ge|lt|gt|le)?'


def listed(operands: str) -> int:
    """The bytes of a list of registers."""
    count = 0
    for part in re.sub(r'.*\{|\}', '', operands).split(', '):
        ends = [int(end) for end in re.findall(r'\d+', part)]
        count += ends[1] - ends[0] + 1 if '-' in part else 1
    return count * (8 if '{d' in operands else 4)


def arm(one: Instruction) -> Step:
    name = re.sub(r'\.[wn]$', '', one.name)
    if match := re.fullmatch('(b|bl|bx|push|vpush|pop|vpop|stmdb|ldm|ldr)' + CONDITION, name):
        if found := arm_moves(one, match[1], bool(match[2])):
            return found
    if re.fullmatch('(sub|add)w?', name) and (match := re.fullmatch(r'(?:sp, )?sp, #' + NUMBER, one.operands)):
        return Step(deeper=number(match[1]) if name.startswith('sub') else -number(match[1]))
    if match := re.search(r'\[sp, #%s\]!$|\[sp\], #%s$' % (NUMBER, NUMBER), one.operands):
        if re.fullmatch(r'(str|ldr)d?', name) and not re.match('(sp|pc)', one.operands):
            return Step(deeper=-number(match[1] or match[2]))
    if name in ('cbz', 'cbnz'):
        return jump(one, False)
    if name in ('tbb', 'tbh'):
        return Step(table=True, goes_on=False)
    if re.match(r'(bl?x|bl?)%s$|push|pop|vpush|vpop|svc|bkpt|rfe|srs' % CONDITION, name):
        raise Unknown(CHANGES)
    if re.match(r'(sp|pc)\b(?!, \{)|.*(sp!|\[sp\], |\[sp, .*\]!|\{[^}]*(sp|pc)\b)', one.operands):
        raise Unknown(CHANGES)
    return Step(below=lowest(re.findall(r'\[sp, #' + NUMBER, one.operands)))


def arm_moves(one: Instruction, name: str, perhaps: bool) -> Step | None:
    """Jumps and calls, and what goes to and from the stack; none if it is something else."""
    if name == 'b':
        return jump(one, not perhaps)
    if name == 'bl':
        return Step(calls=called(one))
    if name == 'bx' and one.operands == 'lr':
        return Step(leaves=True, goes_on=perhaps)
    if name in ('push', 'vpush') or name == 'stmdb' and one.operands.startswith('sp!, '):
        return None if perhaps else Step(deeper=listed(one.operands))
    if name in ('pop', 'vpop') or name == 'ldm' and one.operands.startswith('sp!, '):
        if 'pc}' in one.operands:
            return Step(deeper=-listed(one.operands), leaves=True, goes_on=perhaps)
        return None if perhaps else Step(deeper=-listed(one.operands))
    if name == 'ldr' and one.operands == 'pc, [sp], #4':
        return Step(deeper=-4, leaves=True, goes_on=perhaps)
    if name == 'ldr' and re.fullmatch(r'pc, \[r\d+, r\d+, lsl #2\]', one.operands):
        return Step(table=True, goes_on=perhaps)
    return None


# ---- RISC-V. A call of another section is two instructions, and the relocation is with the first: machine.py gives it
# to the second.

def riscv(one: Instruction) -> Step:
    if one.name == 'addi' and (match := re.fullmatch('sp, sp, ' + NUMBER, one.operands)):
        return Step(deeper=-number(match[1]))
    if one.name == 'ret':
        return Step(leaves=True, goes_on=False)
    if one.name == 'jal' or one.name == 'jalr' and one.names:
        return Step(calls=called(one))
    if one.name == 'jr' and not one.names and '(' not in one.operands:
        return Step(table=True, goes_on=False)
    if one.name in ('j', 'jr'):
        return jump(one, True)
    if re.match('b(eq|ne|lt|ge|gt|le)', one.name):
        return jump(one, False)
    if re.match(r'j|e(call|break)|[ms]ret', one.name):
        raise Unknown('goes nobody knows where')
    if re.match(r'sp\b', one.operands) and one.name not in ('sb', 'sh', 'sw', 'sd'):
        raise Unknown(CHANGES)
    return Step(below=lowest(re.findall(NUMBER + r'\(sp\)', one.operands)))


STEPS: dict[str, Callable[[Instruction], Step]] = {
    'x86-64': x86_64, 'aarch64': aarch64, 'arm': arm, 'riscv': riscv,
}


def step(machine: str, one: Instruction) -> Step:
    """What an instruction of a machine does."""
    if not re.fullmatch(r'[a-z][\w.]*', one.name):
        raise Unknown('no instruction')
    return Step(goes_on=False) if traps(one) else STEPS[machine](one)


def entry(machine: str) -> int:
    """The bytes that a call itself puts on the stack."""
    return 8 if machine == 'x86-64' else 0


def fills(machine: str, one: Instruction) -> bool:
    """Whether an instruction that nothing leads to only fills up room."""
    return one.name.startswith(('nop', 'int3') if machine == 'x86-64' else ('nop',))
