"""Books written as text, for the tables of stored cases.

Written from the specification alone; shares no code with the engine.

    abducible a b; goal x -y; x <- a -b; y <-; a b -> x | b -y; a ->; -> b

Statements stand between semicolons. Atoms are numbered in the order of their
first mention, so `abducible` comes first; `defined x y` only fixes an order.
A minus negates. `<-` is a clause, `->` a constraint, `|` parts alternatives.
"""

from tests.implementation.reader import Book, Clause, Constraint, encode, framed


class Names:
    """Atoms by name, numbered as they are met."""

    def __init__(self):
        self.number = {}

    def atom(self, name):
        return self.number.setdefault(name, len(self.number))

    def literal(self, text):
        return 2 * self.atom(text.lstrip("-")) + text.startswith("-")

    def literals(self, text):
        return tuple(self.literal(word) for word in text.split())


def book(text):
    """The book this text stands for."""
    names = Names()
    abducibles, goal, clauses, constraints = 0, (), [], []
    for statement in filter(None, (part.strip() for part in text.split(";"))):
        if "<-" in statement:
            clauses.append(clause(statement, names))
        elif "->" in statement:
            constraints.append(constraint(statement, names))
        elif statement.startswith("goal"):
            goal = names.literals(statement[len("goal"):])
        else:
            kind, *listed = statement.split()
            assert kind in ("abducible", "defined"), statement
            for name in listed:
                names.atom(name)
            abducibles += len(listed) if kind == "abducible" else 0
    return Book(max(len(names.number), 1), abducibles, goal, tuple(clauses), tuple(constraints))


def clause(statement, names):
    head, body = statement.split("<-")
    return Clause(names.atom(head.strip()), names.literals(body))


def constraint(statement, names):
    conditions, alternatives = statement.split("->")
    parts = alternatives.split("|") if alternatives.strip() else []
    return Constraint(names.literals(conditions), tuple(names.literals(part) for part in parts))


def image(text):
    """The image of the book this text stands for."""
    return encode(book(text))


def raw(digits):
    """Bytes from hexadecimal digits."""
    return bytes.fromhex(digits)


def rest(digits):
    """An image with a sound header before these bytes."""
    return framed(bytes.fromhex(digits))
