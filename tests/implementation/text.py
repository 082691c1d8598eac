"""The reader of texts: from rules as surveyors type them to an image, or to the names of its atoms (paper 02, A1).

Written from the specification alone; shares no code with the engine.

    spike :- abd(fish).  spike :- naf(wake), tall.  abd(fish) ---> moving ; abd(shoal), tall.  ?- spike.

First the words, then the grammar, then 51, then the book as the image will have it. The walk over the image that would be written (5, 7)
and the test for loops (9) are those of the reader of images; their places are in no text and are not told (paper 02, A2.2).
"""

import re
from dataclasses import dataclass

from tests.implementation import reader

LONGEST_TEXT = 32768
LONGEST_NAME = 31

ABD, NAF, TRUE, FALSE = b"abd(", b"naf(", b"true", b"false"  # the fixed words
NO_NAMES = (b"abd", b"naf", TRUE, FALSE)
IF, THEN, ASK, AND, OR, CLOSE, STOP = b":-", b"--->", b"?-", b",", b";", b")", b"."

# A word is taken as long as it goes. Every byte that is no blank and of no word or sign is a word by itself, which the grammar refuses.
WORD = re.compile(rb"abd\(|naf\(|[A-Za-z0-9_]+|:-|--->|\?-|[^ \t\n\r]")
NAME = re.compile(rb"[a-z][A-Za-z0-9_]*")


class Malformed(Exception):
    """A text that is not of the grammar, or too long (50)."""


@dataclass(frozen=True)
class Atom:
    name: bytes
    marked: bool  # written with abd


@dataclass(frozen=True)
class Literal:
    atom: Atom
    negated: bool


@dataclass(frozen=True)
class Clause:
    head: Atom
    body: tuple

    def atoms(self):
        """Its atoms as they stand in the text: the head before the body."""
        yield self.head
        yield from (literal.atom for literal in self.body)


@dataclass(frozen=True)
class Constraint:
    conditions: tuple
    alternatives: tuple

    def atoms(self):
        """Its atoms as they stand in the text, left before right."""
        yield from (literal.atom for literal in self.conditions)
        for alternative in self.alternatives:
            yield from (literal.atom for literal in alternative)


@dataclass(frozen=True)
class Document:
    """What a text says: clauses and constraints as they come, and the goal."""

    statements: tuple
    goal: tuple

    def atoms(self):
        """Every mention of an atom, as they stand in the text: the goal line last."""
        for statement in self.statements:
            yield from statement.atoms()
        yield from (literal.atom for literal in self.goal)


# The calls.

def read(text, room):
    """The image of the book that this text says, or the number of the refusal: 50, 51, 5, 7, 9 or 52."""
    image, _ = written(text)
    return fitting(image, room)


def names(text, room):
    """The names of the text's atoms in their order, a line each, or the number of the refusal, 52 where they do not fit."""
    _, lines = written(text)
    return fitting(lines, room)


def fitting(output, room):
    """The output if the room has its length (52); a refusal as it is."""
    if isinstance(output, bytes) and len(output) > room:
        return 52
    return output


def written(text):
    """The image and the lines of names that this text gives, whatever the rooms; or its refusal 50, 51, 5, 7 or 9, twice."""
    try:
        document = parsed(text)
    except Malformed:
        return 50, 50
    if both_ways(document):
        return 51, 51
    order = numbered(document)
    image = reader.encode(book_of(document, order))
    found = reader.read(image)
    if not isinstance(found, reader.Book):
        assert found.number in (5, 7, 9), found  # an image of a book is well formed, and its literals name its atoms
        return found.number, found.number
    return image, b"".join(atom.name + b"\n" for atom in order)


# Words.

def words(text):
    """The words and signs of a text, in order, the blanks between them gone."""
    return WORD.findall(text)


def is_name(word):
    return NAME.fullmatch(word) is not None and len(word) <= LONGEST_NAME and word not in NO_NAMES


# Grammar (50).

def parsed(text):
    """The document that this text says, or Malformed."""
    if len(text) > LONGEST_TEXT:
        raise Malformed
    return Grammar(words(text)).document()


class Grammar:
    """The words of a text, taken from the front by the rules of A1.1."""

    def __init__(self, found):
        self.words = found
        self.at = 0

    def next(self):
        """The next word; none is left at the end."""
        return self.words[self.at] if self.at < len(self.words) else b""

    def has(self, word):
        """Takes this word if it is the next one."""
        if self.next() != word:
            return False
        self.at += 1
        return True

    def must(self, word):
        if not self.has(word):
            raise Malformed

    def document(self):
        """{ clause | constraint } goal, and nothing behind it."""
        statements = []
        while not self.has(ASK):
            statements.append(self.statement())
        goal = () if self.has(TRUE) else self.literals()
        self.must(STOP)
        if self.at != len(self.words):
            raise Malformed
        return Document(tuple(statements), goal)

    def statement(self):
        """A clause or a constraint: what stands in front shows which."""
        if self.has(TRUE):
            return self.conclusion(())
        front = self.literals()
        if self.next() == THEN:
            return self.conclusion(front)
        if len(front) > 1 or front[0].negated:
            raise Malformed
        head = front[0].atom
        body = self.literals() if self.has(IF) else ()
        self.must(STOP)
        return Clause(head, body)

    def conclusion(self, conditions):
        """A constraint from its arrow on."""
        self.must(THEN)
        alternatives = []
        if not self.has(FALSE):
            alternatives.append(self.literals())
            while self.has(OR):
                alternatives.append(self.literals())
        self.must(STOP)
        return Constraint(conditions, tuple(alternatives))

    def literals(self):
        found = [self.literal()]
        while self.has(AND):
            found.append(self.literal())
        return tuple(found)

    def literal(self):
        if not self.has(NAF):
            return Literal(self.atom(), False)
        atom = self.atom()
        self.must(CLOSE)
        return Literal(atom, True)

    def atom(self):
        if not self.has(ABD):
            return Atom(self.name(), False)
        name = self.name()
        self.must(CLOSE)
        return Atom(name, True)

    def name(self):
        word = self.next()
        if not is_name(word):
            raise Malformed
        self.at += 1
        return word


# Atoms and their numbers.

def both_ways(document):
    """Whether a name stands both with and without abd (51)."""
    mentioned = set(document.atoms())
    return len({atom.name for atom in mentioned}) < len(mentioned)


def numbered(document):
    """The atoms in the order of their numbers: the abducibles by first appearance, then the others likewise."""
    appeared = list(dict.fromkeys(document.atoms()))
    return [atom for atom in appeared if atom.marked] + [atom for atom in appeared if not atom.marked]


# The book.

def book_of(document, order):
    """The book that the document says, with atoms numbered in this order; no limit is tested.

    Its image can be written, whatever limit it breaks. In a text of 32,768 bytes each literal has a byte and a sign behind it, so there are
    fewer than 16,384 literals, alternatives, statements and atoms, and every count and literal is below 32,768. A record's length is two
    bytes for the conditions' count, two for each literal and two more for each alternative: at most four for every two bytes of its text. The
    arrow has four bytes and the shortest goal line four, so it stays below 65,536; `a--->a;a; .. ;a.?-a.` comes to 65,520. (`encode` stops
    with an OverflowError at a value that does not fit, and the self-check tries the longest.)
    """
    number = {atom: place for place, atom in enumerate(order)}

    def literals(found):
        return tuple(2 * number[literal.atom] + literal.negated for literal in found)

    clauses = tuple(
        reader.Clause(number[statement.head], literals(statement.body))
        for statement in document.statements if isinstance(statement, Clause)
    )
    constraints = tuple(
        reader.Constraint(literals(statement.conditions), tuple(map(literals, statement.alternatives)))
        for statement in document.statements if isinstance(statement, Constraint)
    )
    abducibles = sum(atom.marked for atom in order)
    return reader.Book(len(order), abducibles, literals(document.goal), clauses, constraints)
