#!/usr/bin/env python3
"""Tests what stack.py rests on: instructions that have to be refused, depths, bounds. Python 3.11, no other library."""

import sys

from instructions import Instruction, Unknown, step
from machine import Function, functions
from stack import Bounds

# Instructions that change the stack pointer by a number that they do not say, or go nobody knows where.
REFUSED = {
    'x86-64': ['subq %rax, %rsp', 'andq $-32, %rsp', 'movq %rbp, %rsp', 'leaq -40(%rbp), %rsp', 'leave', 'popq %rsp',
               'callq *%rax', 'xchgq %rax, %rsp', 'retq $8', 'subl $8, %esp', 'pushw %ax', '<unknown>'],
    'aarch64': ['sub sp, sp, x8', 'mov sp, x29', 'add sp, x29, #16', 'and sp, x9, #0xfffffffffffffff0', 'blr x8',
                'st1 {v0.16b}, [sp], x2', 'retaa'],
    'arm': ['sub.w sp, sp, r4', 'mov sp, r7', 'bx r3', 'blx r3', 'mov pc, r2', 'add pc, pc, r1', 'popne {r4, r5}',
            'subne sp, sp, #8', 'ldm r7, {r4, sp}', 'ldr pc, [r3]', 'pusheq {r4}'],
    'riscv': ['sub sp, sp, a0', 'mv sp, s0', 'jalr a5', 'jr -4(t1)', 'lw sp, 0(a0)', 'addi sp, s0, -16'],
}

# Instructions, and how many bytes deeper the stack is after them.
DEEPER = {
    'x86-64': {'pushq %rbp': 8, 'popq %rbx': -8, 'subq $120, %rsp': 120, 'addq $0x78, %rsp': -120,
               'movq %rsp, %rdi': 0},
    'aarch64': {'stp x29, x30, [sp, #-32]!': 32, 'ldp x29, x30, [sp], #32': -32, 'sub sp, sp, #1, lsl #12': 4096,
                'str x19, [sp, #16]': 0, 'add x29, sp, #16': 0},
    'arm': {'push.w {r4, r5, r6, r7, r8, r9, r10, r11, lr}': 36, 'vpush {d8, d9}': 16, 'vpop {d8-d15}': -64,
            'sub sp, #100': 100, 'add.w sp, sp, #408': -408, 'popne {r4, pc}': -8, 'str lr, [sp, #-4]!': 4,
            'stm.w sp, {r0, r1, r2}': 0, 'ldrd r0, r1, [sp, #8]': 0},
    'riscv': {'addi sp, sp, -448': 448, 'addi sp, sp, 448': -448, 'sw sp, 4(a0)': 0, 'addi a0, sp, 16': 0},
}

# A function with a table, a jump over a frame that is taken late, and a call of another one.
LISTING = '''
Disassembly of section .text.one:

0000000000000000 <one>:
       0:      	testq	%rdi, %rdi
       3:      	je	0x20 <one+0x20>
       5:      	pushq	%rbx
       6:      	subq	$0x190, %rsp                    # imm = 0x190
       d:      	jmpq	*%rax
       f:      	callq	0x14 <one+0x14>
		0000000000000010:  R_X86_64_PLT32	.text.two-0x4
      14:      	addq	$400, %rsp
      1b:      	popq	%rbx
      20:      	retq

Disassembly of section .text.two:

0000000000000000 <two>:
       0:      	movq	%rdi, -24(%rsp)
       5:      	retq
'''


def parsed(words: str) -> Instruction:
    name, _, operands = words.partition(' ')
    return Instruction(0, name, operands)


def wrong_steps() -> list[str]:
    """Instructions that are not taken as they should be."""
    wrong = []
    for machine, refused in REFUSED.items():
        for words in refused:
            try:
                wrong.append('%s: %s: %s' % (machine, words, step(machine, parsed(words))))
            except Unknown:
                pass
    for machine, known in DEEPER.items():
        for words, deeper in known.items():
            if step(machine, parsed(words)).deeper != deeper:
                wrong.append('%s: %s' % (machine, words))
    return wrong


def wrong_bounds() -> list[str]:
    """Bounds that are not what they should be."""
    found = functions('x86-64', LISTING)
    wrong = [] if found['two'].deepest == 32 else ['what is below the stack pointer is not counted']
    if found['one'].calls != {('two', 416)} or Bounds(found).bound('one') != 448:
        wrong.append('%s' % found['one'])
    for functions_ in ({'a': Function('a', 8, {('a', 8)})}, {'a': Function('a', 8, {('b', 8)})}):
        try:
            wrong.append('%s: %d' % (functions_, Bounds(functions_).bound('a')))
        except Unknown:
            pass
    return wrong


def main() -> int:
    wrong = wrong_steps() + wrong_bounds()
    print('\n'.join(wrong) if wrong else 'ok')
    return 1 if wrong else 0


if __name__ == '__main__':
    sys.exit(main())
