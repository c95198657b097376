"""The comparison with the definitions as a module of the logic: tables of texts with the answers
that the independent reading of document 01 (document01/) expects, each to be proved by refl."""

import random
from typing import NamedTuple

from document01 import answers
from document01.answers import NoMessage, faults_of, printed
from document01.faults import faults
from document01.reader import Refusal, read
from document01.rust_walk import rust_walk

WORK = 16384

HEAD = '''-- Scratch: the definitions against the independent reading in Python.
use Rattle.std.specs.Prelude.{ℕ, ◌≡◌, List, [], ◌∷◌, map}
use Rattle.std.proofs.Common.{refl}
use Prim.Native.String.{String}
use Rattle.std.proofs.Math.Option.{none, some}
use Rattle.spec_text.specs.Bytes.{Bytes, Part, bytes}
use Rattle.spec_text.specs.Reading.{Reading, tree, refusal, reading}
use Rattle.spec_faults.specs.Faults.{Fault, faults, full_report, records, message_of}
use Rattle.spec_faults.specs.Rust.{Checked, as_read, analyze_with_globals}
use Rattle.spec_faults.proofs.ListingWalk.{walk}
use Rattle.spec_answers.specs.Answers.{Answer, accepted, written, faulty, refused, Outcome, refusing, check, report, message, name}
use Rattle.spec_answers.specs.Printed.{printed}

pub data Read : Type 0 where
  judged : List ℕ → List ℕ → List Bytes → Checked → List ℕ → List ℕ → Read
  unread : ℕ → ℕ → Read

abbrev places : List Fault → List ℕ
places [] = []
places (f ∷ fs) = f.place ∷ f.line ∷ places fs

abbrev read_of : Reading → Read
read_of (tree t) =
    judged (full_report t) (places (faults t)) (map (λ (f : Fault). message_of f) (faults t)) (analyze_with_globals as_read t) (records (walk t)) (places (walk t))
read_of (refusal k n) = unread k n

-- the calls: check; report to an output of o numbers; message i to m bytes; name i; what is printed
pub record Calls : Type 0 where
  pub reads : Read
  pub checks : Answer
  pub reports : Outcome
  pub says : Outcome
  pub names : Part
  pub prints : Bytes

abbrev calls : Bytes → ℕ → ℕ → ℕ → Calls
calls s o i m =
    record { reads = read_of (reading s 16384); checks = check s 16384; reports = report s 16384 o; says = message s 16384 i m; names = name s 16384 i; prints = printed s }

abbrev rust : ℕ → ℕ → ℕ → String → Checked
rust k s e m = some (record { kind = k; message = bytes m; start = s; end = e })

abbrev expect : List ℕ → List ℕ → List Bytes → Checked → Read
expect r p m c = judged r p m c r p

abbrev part : ℕ → Bytes → Part
part o b = record { offset = o; bytes = b }

abbrev wrote : ℕ → List ℕ → Outcome
wrote n ns = record { answer = written n; writes = ns }

abbrev answered : Read → Answer → Outcome → Outcome → Part → Bytes → Calls
answered o c r m n p = record { reads = o; checks = c; reports = r; says = m; names = n; prints = p }

pub record Row : Type 0 where
  pub text : Bytes
  pub out : ℕ
  pub i : ℕ
  pub room : ℕ
  pub is : Calls

abbrev row : Bytes → ℕ → ℕ → ℕ → Calls → Row
row s o i m c = record { text = s; out = o; i = i; room = m; is = c }

abbrev get : List Row → List Calls
get rs = map (λ (r : Row). calls r.text r.out r.i r.room) rs

abbrev want : List Row → List Calls
want rs = map (λ (r : Row). r.is) rs

'''


# ------------------------------------------------------------------ terms

def string(text: bytes) -> str:
    """ASCII bytes as a string of the logic."""
    parts = []
    for byte in text:
        if byte == 9:
            parts.append('\\t')
        elif byte == 10:
            parts.append('\\n')
        elif byte == 13:
            parts.append('\\r')
        elif byte in b'"\\':
            parts.append('\\' + chr(byte))
        elif byte < 32 or byte == 127:
            parts.append('\\x%02x' % byte)
        else:
            parts.append(chr(byte))
    return '"' + ''.join(parts) + '"'


def numbers(values: list[int]) -> str:
    return '(' + ''.join('%d ∷ ' % value for value in values) + '[])'


def quoted(text: bytes) -> str:
    """The bytes as a term of type Bytes."""
    if any(byte > 127 for byte in text):
        return numbers(list(text))
    return '(bytes %s)' % string(text)


# ---------------------------------------------------------------- answers

class Sizes(NamedTuple):
    """What the calls on a text are given: room for a report, an i, and room for a message."""

    out: int
    i: int
    room: int


def sizes(text: bytes) -> Sizes:
    """Sizes from the text alone: often just enough, one short, or past the last fault."""
    rng = random.Random(text)
    found = faults_of(text)
    i = rng.randrange(len(found) + 1)
    length = len(found[i].message) if i < len(found) else 5
    out = max(0, 7 * len(found) + rng.choice((-7, -1, 0, 1)))
    return Sizes(out, i, max(0, length + rng.choice((-1, 0, 1))))


def outcome(text: bytes) -> str:
    """The reading or its refusal; the full report, places and reads, messages, the Rust walk."""
    tree = read(text)
    if isinstance(tree, Refusal):
        return '(unread %d %d)' % (tree.number, tree.carries)
    found = faults(tree)
    report = answers.numbers([fault.record for fault in found])
    places = [line for fault in found for line in (fault.place, fault.read or fault.place)]
    messages = ''.join('bytes %s ∷ ' % string(fault.message) for fault in found)
    error = rust_walk(tree)
    walk = ('none' if error is None else '(rust %d %d %d %s)'
            % (error.kind, error.start, error.end, string(error.message)))
    return '(expect %s %s (%s[]) %s)' % (numbers(report), numbers(places), messages, walk)


def refused(number: int, *carries: int) -> str:
    return '(refused %d %s)' % (number, numbers(list(carries)))


def refusing(number: int, *carries: int) -> str:
    return '(refusing %s)' % refused(number, *carries)


def check_answer(text: bytes) -> str:
    answer = answers.check(text)
    if answer is None:
        return 'accepted'
    if isinstance(answer, Refusal):
        return refused(answer.number, answer.carries)
    return '(faulty %s)' % numbers(list(answer))


def report_answer(text: bytes, out: int) -> str:
    answer = answers.report(text, WORK, out)
    if isinstance(answer, Refusal):
        return refusing(answer.number, answer.carries)
    return '(wrote %d %s)' % (len(answer), numbers(answers.numbers(answer)))


def message_answer(text: bytes, i: int, room: int) -> str:
    answer = answers.message(text, WORK, i, room)
    if answer is NoMessage.NO_FAULT:
        return refusing(17)
    if answer is NoMessage.TOO_LONG:
        return refusing(18)
    if isinstance(answer, Refusal):
        return refusing(answer.number, answer.carries)
    return '(wrote %d (bytes %s))' % (len(answer), string(answer))


def name_answer(text: bytes, i: int) -> str:
    part = answers.name(text, WORK, i)
    return '(part %d (bytes %s))' % (part.offset, string(part.of(text)))


# ----------------------------------------------------------------- module

def row(text: bytes, expected: str) -> str:
    """A text with its sizes and all that is expected of it."""
    size = sizes(text)
    return 'row %s %d %d %d (answered %s %s %s %s %s (bytes %s))' % (
        quoted(text), *size, expected, check_answer(text), report_answer(text, size.out),
        message_answer(text, size.i, size.room), name_answer(text, size.i), string(printed(text)))


def module(batches: list[list[bytes]]) -> str:
    """A module that holds if all texts have the answers to expect; a declaration for each batch."""
    return HEAD + ''.join(declaration(index, [row(text, outcome(text)) for text in batch])
                          for index, batch in enumerate(batches))


def wrong_module(text: bytes) -> str:
    """A module that cannot hold: it expects an outcome that no text has."""
    return HEAD + declaration(0, [row(text, '(unread 99 99)')])


def declaration(index: int, rows: list[str]) -> str:
    listed = ''.join('    %s\n    ∷\n' % one for one in rows)[:-1]
    return ('abbrev rows{0} : List Row\nrows{0} =\n{1} []\n\n'
            'pub holds{0} : get rows{0} ≡ want rows{0}\nholds{0} = refl\n\n'
            ).format(index, listed)
