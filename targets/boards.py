"""The targets: how the library and the replay are built for each, and how the replay is run.

The library is compiled by the kit's clang, which wrote the IR; the replay by the clang that is installed, as a maker's
program is by the maker's.
"""

import platform
import shutil
from dataclasses import dataclass
from pathlib import Path

from ir import LIBRARY, MADE, ROOT, Failed, Kit, ran

# Tools that are no part of the kit, and the Debian package of each.
PACKAGES = {
    'clang': 'clang', 'ld.lld': 'lld', 'wasm-ld': 'lld', 'llvm-objdump': 'llvm', 'llvm-nm': 'llvm', 'llvm-size': 'llvm',
    'qemu-aarch64': 'qemu-user', 'qemu-arm': 'qemu-user', 'qemu-riscv32': 'qemu-user', 'qemu-riscv64': 'qemu-user',
    'qemu-x86_64': 'qemu-user', 'node': 'nodejs',
}

# As the kit compiles, but for the target: what cannot be reached is a trap, each function has a section, and three
# passes are left out.
AS_THE_KIT = ['-ffunction-sections', '-fdata-sections']
for option in ('trap-unreachable', 'no-trap-after-noreturn', 'disable-machine-licm', 'disable-postra-machine-licm',
               'sink-common-insts=false'):
    AS_THE_KIT += ['-mllvm', '-' + option]
REPLAY = ['-std=c11', '-Wall', '-Wextra', '-Wpedantic', '-Werror', '-ffreestanding', '-fno-stack-protector']

# `-meabi gnu`: memcpy and memset by these names, and not __aeabi_memcpy. `-mno-relax`: jumps are in the object as they
# are in the program, so that they can be read there.
ARM = ['-meabi', 'gnu']
RV32, RV64 = ['-march=rv32imac', '-mabi=ilp32', '-mno-relax'], ['-march=rv64imac', '-mabi=lp64', '-mno-relax']


@dataclass
class Board:
    """A target: its name, its flags, the machine whose code it is, and what runs a program for it."""

    name: str
    machine: str
    flags: list[str]
    runs: list[str]
    level: str = '-O2'

    @property
    def title(self) -> str:
        return '%s %s' % (self.name, self.level)

    @property
    def folder(self) -> Path:
        return MADE / (self.name + self.level)

    @property
    def shown(self) -> str:
        return ' '.join(self.flags + [self.level])

    def tools(self) -> list[str]:
        """The tools that it needs."""
        linker = 'wasm-ld' if self.machine == 'wasm32' else 'ld.lld'
        return ['clang', linker, 'llvm-objdump', 'llvm-nm', 'llvm-size'] + self.runs[:1]


EMULATED = [] if platform.machine() == 'x86_64' else ['qemu-x86_64']
NATIVE = Board('x86-64', 'x86-64', ['--target=x86_64-unknown-linux-gnu'], EMULATED, '-O3')
NODE = ['node', str(ROOT / 'targets' / 'replay.cjs')]
BOARDS = [
    Board('aarch64', 'aarch64', ['--target=aarch64-none-elf'], ['qemu-aarch64']),
    Board('thumbv7em', 'arm', ['--target=thumbv7em-none-eabi', *ARM], ['qemu-arm']),
    Board('thumbv7em', 'arm', ['--target=thumbv7em-none-eabi', *ARM], ['qemu-arm'], '-Os'),
    Board('armv7-A', 'arm', ['--target=armv7a-none-eabi', *ARM], ['qemu-arm']),
    Board('riscv32', 'riscv', ['--target=riscv32-none-elf', *RV32], ['qemu-riscv32']),
    Board('riscv64', 'riscv', ['--target=riscv64-none-elf', *RV64], ['qemu-riscv64']),
    Board('wasm32', 'wasm32', ['--target=wasm32-unknown-unknown'], NODE),
]


def missing(boards: list[Board]) -> list[str]:
    """The tools that are not there, with the package of each."""
    needed = sorted({tool for board in boards for tool in board.tools()})
    return ['%s (Debian: %s)' % (tool, PACKAGES[tool]) for tool in needed if not shutil.which(tool)]


def build_library(kit: Kit, board: Board, module: Path) -> Path:
    """The library for a target, from the module."""
    board.folder.mkdir(parents=True, exist_ok=True)
    made, archive = board.folder / (LIBRARY + '.o'), board.folder / ('lib%s.a' % LIBRARY)
    silent = ['-Wno-override-module', '-fstack-usage']
    ran([kit.clang, *board.flags, board.level, *AS_THE_KIT, *silent, '-c', '-x', 'ir', str(module), '-o', str(made)])
    archive.unlink(missing_ok=True)
    ran([kit.ar, 'rcD', str(archive), str(made)])
    return archive


def compiler_frames(board: Board) -> dict[str, int]:
    """The frame of each function as the compiler itself wrote it down (-fstack-usage)."""
    frames: dict[str, int] = {}
    for line in (board.folder / (LIBRARY + '.su')).read_text().splitlines():
        name, count, kind = line.split('\t')
        if kind != 'static':
            raise Failed('%s: a frame that is %s: %s' % (board.name, kind, name))
        frames[name.partition(':')[2]] = int(count)
    return frames


def unexpected(archive: Path) -> list[str]:
    """What a library needs beside the three functions that the header names."""
    given = ('memcpy', 'memmove', 'memset', '__stack_pointer')
    names = [line.split()[-1] for line in ran(['llvm-nm', '-u', str(archive)]).decode().splitlines() if ' U ' in line]
    return [name for name in names if name not in given]


def text_size(archive: Path) -> int:
    """Bytes of code and constants; a library with data of its own is an error."""
    text, data, bss = ran(['llvm-size', str(archive)]).decode().splitlines()[1].split()[:3]
    if data != '0' or bss != '0':
        raise Failed('%s has data' % archive.name)
    return int(text)


def build_replay(board: Board, archive: Path) -> list[str]:
    """The replay for a target, linked with the library: the command that runs it."""
    board.folder.mkdir(parents=True, exist_ok=True)
    made, program = board.folder / 'replay.o', board.folder / 'replay'
    # the stack pointer stays where it is over a call, so that what is measured starts at the call
    still = ['-mllvm', '-no-x86-call-frame-opt'] if board.machine == 'x86-64' else []
    ran(['clang', *board.flags, '-O2', *still, *REPLAY, '-c', str(ROOT / 'targets' / 'replay.c'), '-o', str(made)])
    if board.machine == 'wasm32':
        linker = ['wasm-ld', '--no-entry', '--export=run', '-z', 'stack-size=1048576']
    else:
        linker = ['ld.lld', '-static', '-z', 'noexecstack']
    ran([*linker, str(made), str(archive), '-o', str(program)])
    return board.runs + [str(program)]
