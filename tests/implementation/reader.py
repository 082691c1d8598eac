"""The reader of rule books: from an image to a book, or a refusal 1 to 9 with its place (paper 01, 4; paper 02, A2).

Written from the specification alone; shares no code with the engine.
A literal stays as the image has it: twice its atom, plus 1 if negated.
"""

from dataclasses import dataclass
from typing import NamedTuple

VERSION = 1
HEADER = 5  # the version byte and the length of the rest

MOST_ATOMS = 256
MOST_ABDUCIBLES = 64
MOST_GOAL_LITERALS = 16
MOST_CLAUSES = 512
MOST_BODY_LITERALS = 1024
MOST_CONSTRAINTS = 128
MOST_CONSTRAINT_LITERALS = 1024
LONGEST_IMAGE = 8751


class Refusal(NamedTuple):
    """A refusal: its number and, of a book's own fault (1 to 9), its place in bytes. Any other has none."""

    number: int
    place: int | None = None

    def __str__(self):
        return str(self.number) if self.place is None else f"{self.number} at {self.place}"


class Refused(Exception):
    """Raised where a fault is met."""

    def __init__(self, number, place):
        super().__init__(f"refused {number} at {place}")
        self.refusal = Refusal(number, place)


@dataclass(frozen=True)
class Clause:
    head: int
    body: tuple = ()


@dataclass(frozen=True)
class Constraint:
    conditions: tuple = ()
    alternatives: tuple = ()


@dataclass(frozen=True)
class Book:
    atoms: int
    abducibles: int
    goal: tuple = ()
    clauses: tuple = ()
    constraints: tuple = ()


def read(image):
    """The book of this image, or its refusal."""
    try:
        check_header(image)
        walk = Walk(image)
        book = walk.book()
        check_loops(book, walk.records)
        return book
    except Refused as raised:
        return raised.refusal


def check_header(image):
    """Refusals 1, 2 and 3, in that order."""
    if len(image) < HEADER:
        raise Refused(1, len(image))
    if image[0] != VERSION:
        raise Refused(2, 0)
    if int.from_bytes(image[1:HEADER], "big") != len(image) - HEADER:
        raise Refused(3, 1)


class Walk:
    """The one walk over the image's fields; the first fault met is the answer."""

    def __init__(self, image):
        self.image = image
        self.at = HEADER
        self.atoms = 0
        self.abducibles = 0
        self.body_total = 0
        self.constraint_total = 0
        self.records = []  # where each clause's record length stands

    def book(self):
        """The whole image after its header, nothing left over."""
        self.atoms = self.limited(1, MOST_ATOMS)
        self.abducibles = self.limited(0, min(MOST_ABDUCIBLES, self.atoms))
        goal = self.literals(self.limited(0, MOST_GOAL_LITERALS))
        clauses = [self.clause() for _ in range(self.limited(0, MOST_CLAUSES))]
        constraints = [self.constraint() for _ in range(self.limited(0, MOST_CONSTRAINTS))]
        if self.at != len(self.image):
            raise Refused(4, self.at)
        return Book(self.atoms, self.abducibles, goal, tuple(clauses), tuple(constraints))

    def field(self):
        """The next field's value; it must be there (4)."""
        if self.at + 2 > len(self.image):
            raise Refused(4, self.at)
        value = self.image[self.at] << 8 | self.image[self.at + 1]
        self.at += 2
        return value

    def limited(self, least, most):
        """A field that must keep to a limit (5)."""
        value = self.field()
        if not least <= value <= most:
            raise Refused(5, self.at - 2)
        return value

    def literal(self):
        """A literal, whose atom must be below A (6)."""
        value = self.field()
        if value >> 1 >= self.atoms:
            raise Refused(6, self.at - 2)
        return value

    def literals(self, count):
        return tuple([self.literal() for _ in range(count)])

    def record_end(self):
        """Where the record starting here ends, its length being tested first (4)."""
        length = self.field()
        end = self.at + length
        if length % 2 == 1 or length < 2 or end > len(self.image):
            raise Refused(4, self.at - 2)
        return end

    def clause(self):
        self.records.append(self.at)
        end = self.record_end()
        count = (end - self.at) // 2 - 1
        if self.body_total + count > MOST_BODY_LITERALS:
            raise Refused(5, self.at - 2)
        self.body_total += count
        head = self.head()
        return Clause(head, self.literals(count))

    def head(self):
        """A head: an atom below A (6) and not abducible (7)."""
        atom = self.field()
        if atom >= self.atoms:
            raise Refused(6, self.at - 2)
        if atom < self.abducibles:
            raise Refused(7, self.at - 2)
        return atom

    def constraint(self):
        end = self.record_end()
        conditions = self.counted_literals(self.field(), end)
        alternatives = []
        while self.at < end:
            alternatives.append(self.alternative(end))
        return Constraint(conditions, tuple(alternatives))

    def alternative(self, end):
        """One alternative, which must have a literal (8)."""
        count = self.field()
        if count == 0:
            raise Refused(8, self.at - 2)
        return self.counted_literals(count, end)

    def counted_literals(self, count, end):
        """Literals of a constraint: the count fits the record (4), then the total (5)."""
        if self.at + 2 * count > end:
            raise Refused(4, self.at - 2)
        if self.constraint_total + count > MOST_CONSTRAINT_LITERALS:
            raise Refused(5, self.at - 2)
        self.constraint_total += count
        return self.literals(count)


def check_loops(book, records):
    """9, at the record of the first clause whose head is on a loop; a head that only leads into one is passed."""
    if dependency_order(book) is not None:
        return
    below = depends_on(book)
    for clause, place in zip(book.clauses, records):
        if below[clause.head] >> clause.head & 1:
            raise Refused(9, place)


def depends_on(book):
    """For each atom all atoms that it depends on, as a number: atom q is 2^q."""
    below = [0] * book.atoms
    for clause in book.clauses:
        for literal in clause.body:
            below[clause.head] |= 1 << (literal >> 1)
    for through in range(book.atoms):
        for atom in range(book.atoms):
            if below[atom] >> through & 1:
                below[atom] |= below[through]
    return below


def dependency_order(book):
    """All atoms, each after those it depends on; None if an atom depends on itself."""
    needs = [set() for _ in range(book.atoms)]
    for clause in book.clauses:
        needs[clause.head].update(literal >> 1 for literal in clause.body)
    needed_by = [[] for _ in range(book.atoms)]
    for atom, below in enumerate(needs):
        for other in below:
            needed_by[other].append(atom)
    waiting = [len(below) for below in needs]
    ready = [atom for atom in range(book.atoms) if waiting[atom] == 0]
    order = []
    while ready:
        atom = ready.pop()
        order.append(atom)
        for above in needed_by[atom]:
            waiting[above] -= 1
            if waiting[above] == 0:
                ready.append(above)
    return order if len(order) == book.atoms else None


def fields(book):
    """The book's two-byte fields in the image's order, each as (kind, value)."""
    yield "A", book.atoms
    yield "B", book.abducibles
    yield "goal count", len(book.goal)
    for literal in book.goal:
        yield "goal literal", literal
    yield "clause count", len(book.clauses)
    for clause in book.clauses:
        yield "clause length", 2 + 2 * len(clause.body)
        yield "head", clause.head
        for literal in clause.body:
            yield "body literal", literal
    yield "constraint count", len(book.constraints)
    for constraint in book.constraints:
        yield from constraint_fields(constraint)


def constraint_fields(constraint):
    """The fields of one constraint's record, its length in front."""
    count = 1 + len(constraint.conditions)
    count += sum(1 + len(alternative) for alternative in constraint.alternatives)
    yield "constraint length", 2 * count
    yield "condition count", len(constraint.conditions)
    for literal in constraint.conditions:
        yield "condition literal", literal
    for alternative in constraint.alternatives:
        yield "alternative count", len(alternative)
        for literal in alternative:
            yield "alternative literal", literal


def framed(rest):
    """An image: version byte, length of the rest, the rest."""
    return bytes([VERSION]) + len(rest).to_bytes(4, "big") + rest


def encode(book):
    """The image of this book; no limit is tested."""
    return framed(b"".join(value.to_bytes(2, "big") for _, value in fields(book)))
