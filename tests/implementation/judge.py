"""The judge of one set of assumptions.

Written from the specification alone; shares no code with the engine.
"""

from tests.implementation.reader import Book, Refusal, dependency_order, read


def judge(image, assumed):
    """('explains',), ('goal', place), ('constraint', place) or ('refused', refusal)."""
    book = read(image)
    if not isinstance(book, Book):
        return ("refused", book)
    if assumed >> book.abducibles:
        return ("refused", Refusal(23))
    return judge_book(book, assumed)


def judge_book(book, assumed):
    """The answer on a book already read and a set of its abducibles."""
    value = values(book, assumed)
    for place, literal in enumerate(book.goal):
        if not is_true(literal, value):
            return ("goal", place)
    for place, constraint in enumerate(book.constraints):
        if not holds(constraint, value):
            return ("constraint", place)
    return ("explains",)


def explains(book, assumed):
    return judge_book(book, assumed) == ("explains",)


def values(book, assumed):
    """The value of every atom, each found once, after those it depends on."""
    bodies = [[] for _ in range(book.atoms)]
    for clause in book.clauses:
        bodies[clause.head].append(clause.body)
    value = [False] * book.atoms
    for atom in dependency_order(book):
        if atom < book.abducibles:
            value[atom] = assumed >> atom & 1 == 1
        else:
            value[atom] = any(all_true(body, value) for body in bodies[atom])
    return value


def is_true(literal, value):
    return value[literal >> 1] != (literal & 1 == 1)


def all_true(literals, value):
    return all(is_true(literal, value) for literal in literals)


def holds(constraint, value):
    """A condition literal is false, or some alternative has all literals true."""
    if not all_true(constraint.conditions, value):
        return True
    return any(all_true(alternative, value) for alternative in constraint.alternatives)
