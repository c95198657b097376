"""The calls check, report, message and name, each with the room that it is given, and what
`namecheck` prints."""

from dataclasses import dataclass
from enum import Enum

from .faults import Fault, Record, faults
from .reader import Refusal, read
from .tree import WORK_MIN

REPORT_NUMBERS = 16384  # the report buffer of namecheck


class NoMessage(Enum):
    """The refusals of message that carry nothing."""

    NO_FAULT = 17
    TOO_LONG = 18


@dataclass(frozen=True)
class Part:
    """A part of the text."""

    offset: int
    length: int

    def of(self, text: bytes) -> bytes:
        return text[self.offset:self.offset + self.length]


def judged(text: bytes, work: int = WORK_MIN) -> list[Fault] | Refusal:
    """The faults of a text, or its refusal."""
    tree = read(text, work)
    return tree if isinstance(tree, Refusal) else faults(tree)


def faults_of(text: bytes) -> list[Fault]:
    """The faults of a text; none where it is refused."""
    found = judged(text)
    return [] if isinstance(found, Refusal) else found


def check(text: bytes, work: int = WORK_MIN) -> Record | Refusal | None:
    """The record of the first fault; None where the text is accepted."""
    found = judged(text, work)
    if isinstance(found, Refusal):
        return found
    return found[0].record if found else None


def report(text: bytes, work: int, room: int) -> list[Record] | Refusal:
    """The full report, to an output of so many numbers."""
    found = judged(text, work)
    if isinstance(found, Refusal):
        return found
    if room < 7 * len(found):
        return Refusal(16, len(found))
    return [fault.record for fault in found]


def message(text: bytes, work: int, i: int, room: int) -> bytes | NoMessage | Refusal:
    """The message of fault i, to an output of so many bytes."""
    found = judged(text, work)
    if isinstance(found, Refusal):
        return found
    if i >= len(found):
        return NoMessage.NO_FAULT
    if room < len(found[i].message):
        return NoMessage.TOO_LONG
    return found[i].message


def name(text: bytes, work: int, i: int) -> Part:
    """The part of the text that is the name of fault i."""
    found = judged(text, work)
    if isinstance(found, Refusal) or i >= len(found):
        return Part(0, 0)
    record = found[i].record
    return Part(record.name_at, record.name_length)


def numbers(records: list[Record]) -> list[int]:
    """The numbers that a report writes."""
    return [number for record in records for number in record]


def printed(text: bytes) -> bytes:
    """What namecheck prints; its work buffer is long enough."""
    answer = report(text, WORK_MIN, REPORT_NUMBERS)
    if isinstance(answer, Refusal):
        return b'refused\t%d\t%d\n' % (answer.number, answer.carries)
    lines = [b'fault\t%d\t%d\t%d\t%s\n' % (*fault.record[:3], fault.message)
             for fault in faults_of(text)]
    return b''.join(lines) + b'faults\t%d\n' % len(lines)
