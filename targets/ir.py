"""The proved code as LLVM IR: had from the kit as it builds the library, looked at, and made free of x86-64.

`rattle build` takes an option `--toolchain DIR` and runs DIR/bin/clang. DIR is here a folder of links to the kit's own
toolchain, and its bin/clang keeps the module that it is given before it runs the kit's. The archive that is made beside
it has to be bit for bit that of `tools/staticlib`: it is the same code.
"""

import re
import shutil
import subprocess
from pathlib import Path

ROOT = Path(__file__).resolve().parent.parent
MADE = ROOT / 'target' / 'targets'
LIBRARY = 'serduzhap_c'
CRATE = 'serduzhap_c_export'  # the crate that exports the library's calls
HEADER = ROOT / 'include' / 'serduzhap.h'

CLANG = '''#!/bin/sh
# Keeps the module that comes after '-x ir', and runs the kit's compiler.
before=
for word in "$@"; do
    if [ "$before" = ir ]; then cp "$word" '%s' || exit 1; fi
    before=$word
done
exec '%s' "$@"
'''


class Failed(Exception):
    """A step that did not come out as it has to."""


def ran(command: list[str], given: bytes = b'', folder: Path = ROOT) -> bytes:
    """What a command writes."""
    done = subprocess.run(command, cwd=folder, input=given, capture_output=True)
    if done.returncode != 0:
        said = (done.stderr or done.stdout).decode(errors='replace').strip()[-2000:]
        raise Failed('%s: status %d\n%s' % (' '.join(command)[:400], done.returncode, said))
    return done.stdout


class Kit:
    """The kit that `rt` belongs to, found as `rt` itself finds it."""

    def __init__(self) -> None:
        rt = shutil.which('rt')
        if not rt:
            raise Failed('rt is not installed')
        self.home = Path(rt).resolve().parent.parent
        self.rlibs = self.home / 'rlibs'
        self.toolchain = self.home / 'toolchain'
        self.clang = str(self.toolchain / 'bin' / 'clang')
        self.ar = str(self.toolchain / 'bin' / 'llvm-ar')

    def crate_words(self) -> list[str]:
        """The words that `rt` gives for the library and what it depends on."""
        listed = needs()
        if CRATE not in listed:
            raise Failed('crates.txt has no ' + CRATE)
        words = ['--crate-name', CRATE, 'src/lib.rt']
        words += ['--extern', 'std=%s' % (self.rlibs / 'std.rlib'), '-L', 'dependency=%s' % self.rlibs]
        for name in listed[CRATE]:
            words += ['--extern', '%s=%s' % (name, rlib(name))]
        below = all_below(CRATE, listed)
        for name in below:
            words += ['-L', 'dependency=%s' % rlib(name).parent]
        for name in [CRATE] + below:
            words += ['--links', name + '=']
        return words

    def build(self, toolchain: Path, archive: Path) -> None:
        """What `rt lib` does once all that the library depends on is proved."""
        ran([str(self.home / 'bin' / 'rattle'), 'build'] + self.crate_words()
            + ['--antt-project', str(self.home / 'rattle' / 'logic' / 'antt-project.json')]
            + ['--logic-built', str(self.home / 'logic_built'), '--incremental', 'out/incremental']
            + ['--crate-type', 'staticlib', '--backend', 'llvm']
            + ['--toolchain', str(toolchain), '-o', str(archive)], folder=ROOT / 'crates' / CRATE)


def needs() -> dict[str, list[str]]:
    """The crates of the repository, each with those that it cites."""
    lines = re.findall(r'^(\w+)[^:#\n]*:([^#\n]*)', (ROOT / 'crates.txt').read_text(), re.M)
    return {name: cited.split() for name, cited in lines}


def all_below(crate: str, listed: dict[str, list[str]]) -> list[str]:
    """The crates that a crate depends on, each once."""
    found: list[str] = []
    left = [*listed[crate]]
    while left:
        name = left.pop()
        if name not in found:
            found.append(name)
            left += listed[name]
    return found


def rlib(name: str) -> Path:
    """A crate of the repository as `rt` has built it for those above it."""
    return ROOT / 'crates' / name / 'out' / 'rlib' / (name + '.rlib')


def keeping_toolchain(kit: Kit, module: Path) -> Path:
    """A toolchain of links to the kit's, whose compiler keeps the module that it is given."""
    folder = MADE / 'toolchain'
    shutil.rmtree(folder, ignore_errors=True)
    (folder / 'bin').mkdir(parents=True)
    for file in kit.toolchain.iterdir():
        if file.name != 'bin':
            (folder / file.name).symlink_to(file)
    for file in (kit.toolchain / 'bin').iterdir():
        if file.name != 'clang':
            (folder / 'bin' / file.name).symlink_to(file)
    wrapper = folder / 'bin' / 'clang'
    wrapper.write_text(CLANG % (module, kit.clang))
    wrapper.chmod(0o755)
    return folder


def archive_of_rt() -> Path:
    """The library for x86-64, as a maker gets it."""
    ran(['tools/staticlib', LIBRARY])
    return ROOT / 'target' / 'staticlib' / ('lib%s.a' % LIBRARY)


def module_of(kit: Kit, archive: Path) -> str:
    """The module of the proved code, as text."""
    module, beside = MADE / 'module.bc', MADE / 'beside.a'
    module.unlink(missing_ok=True)
    kit.build(keeping_toolchain(kit, module), beside)
    if not module.exists():
        raise Failed('the kit gave its compiler no module')
    if beside.read_bytes() != archive.read_bytes():
        raise Failed('the archive that is made beside the module is not that of tools/staticlib')
    return ran([kit.clang, '-x', 'ir', str(module), '-S', '-emit-llvm', '-o', '-']).decode()


# ---- what is relied upon

# Instructions that mean the same on every target. Memory is addressed by bytes: `getelementptr i8`.
MEANT = set('alloca load store getelementptr call br switch ret unreachable icmp add sub mul udiv urem shl lshr and or '
            'xor zext trunc select phi extractvalue insertvalue'.split())
MEMORY = re.compile(r'llvm\.(memmove|memcpy|memset)\.[\w.]+')
# What a function answers: a number, a pointer, or two of these. Two are loaded one by one: see `portable`.
ANSWER = r'(?:\w+|\{ (?:ptr|i64), i64 \})'
PAIR = re.compile(r'^  (%\S+) = load (\{ (ptr|i64), i64 \}), ptr (%\S+), align 8$', re.M)
# The words of the tree text, as bytes that nobody writes.
BYTES = re.compile(r'^(@[\w.]+) = private unnamed_addr constant \[\d+ x i8\] c".*", align 1\n', re.M)
TYPES = {'void', 'i1', 'i8', 'i16', 'i32', 'i64', 'ptr'}


def header_types() -> dict[str, list[str]]:
    """The calls of the header, with the types that their parameters have in the module; the one of the answer first."""
    text = re.sub(r'/\*.*?\*/', '', HEADER.read_text(), flags=re.S)
    kinds = {'uint64_t': 'i64'}
    calls: dict[str, list[str]] = {}
    for answer, name, given in re.findall(r'^(\w+) (\w+)\(([^)]*)\);', text, re.M | re.S):
        calls[name] = [answer] + ['ptr' if '*' in one or '[' in one else kinds.get(one.split()[0], '?')
                                  for one in given.split(',')]
    return calls


def exported_types(module: str) -> dict[str, list[str]]:
    """The functions that a module exports, with their types."""
    found: dict[str, list[str]] = {}
    for answer, name, given in re.findall(r'^define ((?!internal).*?)@"?([^"(]*)"?\((.*?)\)', module, re.M):
        found[name] = [answer.split()[-1]] + [one.split()[0] for one in given.split(', ')]
    return found


def uncalled(module: str) -> list[str]:
    """Functions that are used otherwise than to be called."""
    names = r'(@"[^"]*"|@[\w.]+)'
    rest = re.sub(r'^(define|declare) [^@\n]*%s' % names, '', BYTES.sub('', module), flags=re.M)
    rest = re.sub(r'\bcall %s %s\(' % (ANSWER, names), '(', rest)
    return sorted(set(re.findall(names, rest)) - set(BYTES.findall(module)))


def complaints(module: str) -> list[str]:
    """What a module has that may not mean the same on another target."""
    found: list[str] = []
    bodies = ''.join(re.findall(r'^define .*?\{\n(.*?)^\}', module, re.M | re.S))
    used = set(re.findall(r'^  (?:%(?:\S+|"[^"]*") = )?(\w+)', bodies, re.M))
    found += ['an instruction %s' % one for one in sorted(used - MEANT)]
    types = set(re.findall(r'\b(i\d+|ptr|half|float|double|fp128|void)\b', bodies))
    found += ['a type %s' % one for one in sorted(types - TYPES)]
    steps = {one.split()[-1] for one in re.findall(r'getelementptr ([^,]*),', bodies)}
    found += ['addresses by %s' % one for one in sorted(steps - {'i8'})]
    rooms = set(re.findall(r'alloca (.*), align', bodies))
    found += ['room of %s' % one for one in sorted(rooms) if not re.fullmatch(r'i\d+|ptr|\[\d+ x i8\]', one)]
    found += ['uses %s but to call it' % one for one in uncalled(module)]
    declared = re.findall(r'^declare .*?@"?([^"(]*)"?\(', module, re.M)
    found += ['calls %s' % one for one in declared if not MEMORY.fullmatch(one)]
    whole = set(re.findall(r'\b(?:load|store) [^%,\n]*[{\[<]', PAIR.sub('', module)))
    found += ['%s, of more than one number' % one for one in sorted(whole)]
    ways = set(re.findall(r'\b(sret|byval|byref|inalloca|addrspace)\b', module))
    found += ['passes by %s' % one for one in sorted(ways)]
    if exported_types(module) != header_types():
        found.append('its calls are not those of the header: %s and %s' % (exported_types(module), header_types()))
    return found


def portable(module: str) -> str:
    """The module without the words that are of x86-64; of a pair the second part stands at byte 8, on every target."""
    module = re.sub(r'^target (datalayout|triple) = .*\n', '', module, flags=re.M)
    module = re.sub(r' "(probe-stack|stack-probe-size|target-cpu)"="[^"]*"', '', module)
    return PAIR.sub(r"""  \1.0 = load \3, ptr \4, align 8
  \1.at = getelementptr i8, ptr \4, i64 8
  \1.1 = load i64, ptr \1.at, align 8
  \1.half = insertvalue \2 poison, \3 \1.0, 0
  \1 = insertvalue \2 \1.half, i64 \1.1, 1""", module)
