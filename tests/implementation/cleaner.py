"""The cleaner: whether a group of observations may be deleted, or is held (paper 02, A4); and the lines of the program above it.

Written from the specification alone; shares no code with the engine.
"""

from dataclasses import dataclass, replace

from tests.implementation.reader import MOST_CLAUSES, Book, Clause, encode, read
from tests.implementation.search import LIST_BEFORE, started, verdict

RECORD_VERSION = 1
RECORD_HEADER = 3  # the version byte and the length
LONGEST_RECORD_REST = 66  # a group number and 32 observed atoms

PROGRAM_BUDGET = 100_000
PROGRAM_ROOM = 256
PROGRAM_WORK = 16384


@dataclass
class Cleaning:
    """What the cleaner answers of a group and leaves: ('deleted',), ('held', verdicts) or ('refused', number); list, work area."""

    answer: tuple
    entries: list
    work: str

    def told(self):
        """The words of its answer."""
        if self.answer[0] == "held":
            return " ".join(["held", *(f"{hypothesis}:{word.replace(' ', '-')}" for hypothesis, word in self.answer[1])])
        return " ".join(map(str, self.answer))


def clean(image, record, hypotheses, budget, room, work_length):
    """One group: its record under the book of this image, with the hypotheses to keep safe as a set."""
    number, packed = begun(image, record, hypotheses, budget, room, work_length)
    if number:
        return Cleaning(("refused", number), [LIST_BEFORE] * room, "untouched")
    verdicts = []
    for hypothesis in members(hypotheses):
        last = verdict(packed, hypothesis, budget, room, work_length)
        if last.answer[0] == "refused":
            return Cleaning(last.answer, last.entries, last.work)
        verdicts.append((hypothesis, last.answer[0]))
    ruled_out = all(word == "ruled out" for _, word in verdicts)
    return Cleaning(("deleted",) if ruled_out else ("held", tuple(verdicts)), last.entries, last.work)


def begun(image, record, hypotheses, budget, room, work_length):
    """(0, the group's image), or (number, None) for a refusal before any search."""
    book = read(image)
    if not isinstance(book, Book):
        return book.number, None
    if hypotheses == 0:
        return 40, None
    group = parsed(record)
    if group is None:
        return 41, None
    _, observed = group
    if not all(book.abducibles <= atom < book.atoms for atom in observed):
        return 42, None
    if len(book.clauses) + len(observed) > MOST_CLAUSES:
        return 5, None
    packed = encode(with_facts(book, observed))
    _, refusal = started(packed, budget, room, work_length)
    if refusal:
        return refusal.number, None
    if hypotheses >> book.abducibles:
        return 23, None
    return 0, packed


def parsed(record):
    """(group number, observed atoms) of a record; None if it is malformed."""
    if len(record) < RECORD_HEADER or record[0] != RECORD_VERSION:
        return None
    length = int.from_bytes(record[1:RECORD_HEADER], "big")
    if length != len(record) - RECORD_HEADER or length % 2 == 1 or not 2 <= length <= LONGEST_RECORD_REST:
        return None
    number, *observed = [int.from_bytes(record[at:at + 2], "big") for at in range(RECORD_HEADER, len(record), 2)]
    return number, observed


def packed_record(number, observed):
    """The record of this group."""
    rest = b"".join(field.to_bytes(2, "big") for field in (number, *observed))
    return bytes([RECORD_VERSION]) + len(rest).to_bytes(2, "big") + rest


def with_facts(book, observed):
    """The group's book: a fact for each observed atom behind the clauses."""
    return replace(book, clauses=book.clauses + tuple(map(Clause, observed)))


def members(hypotheses):
    """The abducibles of a set, ascending."""
    return [number for number in range(hypotheses.bit_length()) if hypotheses >> number & 1]


# The program above it.

def records(data):
    """The records of a file, cut by their own length fields; a rest that is too short is one last record."""
    while data:
        length = RECORD_HEADER + int.from_bytes(data[1:RECORD_HEADER], "big")
        yield data[:length]
        data = data[length:]


def program_lines(image, data, hypotheses):
    """A line for each group of a file."""
    for record in records(data):
        told = clean(image, record, hypotheses, PROGRAM_BUDGET, PROGRAM_ROOM, PROGRAM_WORK).told()
        group = parsed(record)
        yield f"group {group[0] if group else '?'} {'held ' if told.startswith('refused') else ''}{told}"
