"""The benchmark's books, written as images into a folder.

    python3 books.py FOLDER

Beside the images stands `index`, a line `FILE BUDGET ROOM` for each book. Books are written as text first, in the
notation that survey.txt explains; the encoder below turns them into images.
"""

import sys
from dataclasses import dataclass
from pathlib import Path

MOST_BUDGET = 1_000_000
MOST_ROOM = 1024
SURVEY = Path(__file__).with_name("survey.txt")


@dataclass(frozen=True)
class Entry:
    """A book of the benchmark with its budget and room."""

    name: str
    text: str
    budget: int = MOST_BUDGET
    room: int = MOST_ROOM


# From text to image.

class Book:
    """A book read from text; atoms are numbered as they are met."""

    def __init__(self, text):
        self.number = {}
        self.abducibles = 0
        self.goal = []
        self.clauses = []
        self.constraints = []
        for line in text.splitlines():
            self.statement(line.partition("#")[0].strip())

    def statement(self, line):
        word, _, others = line.partition(" ")
        if "<-" in line:
            head, body = line.split("<-")
            self.clauses.append((self.atom(head.strip()), self.literals(body)))
        elif "->" in line:
            conditions, alternatives = line.split("->")
            parts = alternatives.split("|") if alternatives.strip() else []
            self.constraints.append((self.literals(conditions), [self.literals(part) for part in parts]))
        elif word == "goal":
            self.goal = self.literals(others)
        elif word in ("abducible", "defined"):
            self.literals(others)
            self.abducibles += len(others.split()) if word == "abducible" else 0
        else:
            assert not line, line

    def atom(self, name):
        return self.number.setdefault(name, len(self.number))

    def literals(self, text):
        return [2 * self.atom(word.lstrip("-")) + word.startswith("-") for word in text.split()]

    def sizes(self):
        """What the limits are about, in the specification's order."""
        in_constraints = sum(len(conditions) + sum(map(len, parts)) for conditions, parts in self.constraints)
        in_bodies = sum(len(body) for _, body in self.clauses)
        return (len(self.number), self.abducibles, len(self.goal), len(self.clauses), in_bodies,
                len(self.constraints), in_constraints)

    def fits(self):
        return all(size <= most for size, most in zip(self.sizes(), (256, 64, 16, 512, 1024, 128, 1024)))

    def fields(self):
        """The image's two-byte fields."""
        yield from (len(self.number), self.abducibles, len(self.goal), *self.goal, len(self.clauses))
        for head, body in self.clauses:
            yield from (2 + 2 * len(body), head, *body)
        yield len(self.constraints)
        for conditions, parts in self.constraints:
            record = [len(conditions), *conditions]
            for part in parts:
                record += [len(part), *part]
            yield from (2 * len(record), *record)

    def image(self):
        rest = b"".join(field.to_bytes(2, "big") for field in self.fields())
        return b"\1" + len(rest).to_bytes(4, "big") + rest


def lines(*parts):
    """Text from lines and lists of lines."""
    return "\n".join(line for part in parts for line in ([part] if isinstance(part, str) else part))


def names(letter, count):
    """The letter with the numbers 1 to count."""
    return [f"{letter}{i}" for i in range(1, count + 1)]


def row(letter, count):
    """The same, with spaces between."""
    return " ".join(names(letter, count))


# The programs of the article's section 6 (paper 003, 7), each of a size n.

def b01(n):
    """A chain of n predicates, each with an abducible of its own."""
    return lines(f"abducible {row('a', n)}", "goal p1",
                 [f"p{i} <- a{i} p{i + 1}" for i in range(1, n)], f"p{n} <- a{n}")


def b02(n):
    """One predicate with n abducible alternatives."""
    return lines(f"abducible {row('a', n)}", "goal p", [f"p <- a{i}" for i in range(1, n + 1)])


def b03(n):
    """A constraint with n abducibles in one alternative."""
    return lines(f"abducible {row('a', n)}", "goal p", "p <-", f"p -> {row('a', n)}")


def b04(n):
    """A constraint with n alternatives of one abducible."""
    return lines(f"abducible {row('a', n)}", "goal p", "p <-", f"p -> {row('a', n).replace(' ', ' | ')}")


def b05(n):
    """A chain of n predicates, all with the same abducible."""
    return lines("abducible a", "goal p1", [f"p{i} <- a p{i + 1}" for i in range(1, n)], f"p{n} <- a")


def b06(n):
    """A chain of n abducibles, each brought about by a constraint on the one before."""
    return lines(f"abducible {row('a', n)}", "goal p1", [f"p{i} <- a{i}" for i in range(1, n + 1)],
                 [f"a{i} -> p{i + 1}" for i in range(1, n)])


def b07(n):
    """A chain of n predicates ending in a fact."""
    return lines("goal p1", [f"p{i} <- p{i + 1}" for i in range(1, n)], f"p{n} <-")


def b08(n):
    """A chain of n negated predicates ending in a fact; nothing explains it if n is even."""
    return lines("goal p1", [f"p{i} <- -p{i + 1}" for i in range(1, n)], f"p{n} <-")


def b09(n):
    """A chain of n predicates, each with a negated abducible that a constraint forbids."""
    return lines(f"abducible {row('a', n)}", "goal p1",
                 [f"p{i} <- -a{i} p{i + 1}" for i in range(1, n)], f"p{n} <- -a{n}",
                 [f"a{i} ->" for i in range(1, n + 1)])


def largest(family):
    """The largest n for which the family's book keeps to the limits."""
    n = 1
    while Book(family(n + 1)).fits():
        n += 1
    return n


def families():
    """b01 to b09 at their largest, and b08 also at its largest odd size."""
    for family in (b01, b02, b03, b04, b05, b06, b07, b08, b09):
        n = largest(family)
        yield Entry(f"{family.__name__}-{n}", family(n))
        if family is b08:
            yield Entry(f"b08-{n - 1}", family(n - 1))


# The survey books.

def survey():
    """Each book of survey.txt, with the printing program's budget and room."""
    for part in SURVEY.read_text().split("\nbook ")[1:]:
        title, _, text = part.partition("\n")
        yield Entry("survey-" + title.partition(":")[0], text, 100_000, 256)


# Longer searches.

class Dice:
    """Random numbers from a seed, the same on every machine and in every version."""

    def __init__(self, seed):
        self.state = seed

    def below(self, count):
        self.state = (self.state * 6364136223846793005 + 1442695040888963407) % (1 << 64)
        return (self.state >> 33) % count

    def some(self, things, count):
        """So many of the things, none twice."""
        left = list(things)
        return [left.pop(self.below(len(left))) for _ in range(count)]

    def literal(self, atom, tenths):
        """The atom, negated in so many tenths of all cases."""
        return "-" * (self.below(10) < tenths) + atom

    def body(self, below, count, tenths):
        return " ".join(self.literal(below[self.below(len(below))], tenths) for _ in range(count))


def facts(each, goals):
    """Goals in a row, each a fact several times over."""
    return lines("goal " + row("x", goals), [f"{x} <-" for x in names("x", goals) for _ in range(each)])


def pairs(count):
    """Goals in a row, each from one of two abducibles: 2^count sets."""
    return lines(f"abducible {row('a', count)} {row('b', count)}", "goal " + row("x", count),
                 [f"x{i} <- {letter}{i}" for i in range(1, count + 1) for letter in "ab"])


def parity(count):
    """An odd number of the abducibles: 2^(count-1) sets explain, those of one member are smallest."""
    return lines(f"abducible {row('a', count)}", f"goal x{count}", "x1 <- a1",
                 [line for i in range(2, count + 1)
                  for line in (f"x{i} <- x{i - 1} -a{i}", f"x{i} <- -x{i - 1} a{i}")])


def edges(seed, points, count):
    """So many edges between points."""
    pairs_of_points = [(i, j) for j in range(1, points + 1) for i in range(1, j)]
    return Dice(seed).some(pairs_of_points, count)


def covers(seed, points, count):
    """Smallest covers of a graph's edges, a constraint for each edge."""
    return lines(f"abducible {row('a', points)}", [f"-> a{i} | a{j}" for i, j in edges(seed, points, count)])


def breaks(seed, points, count):
    """The same covers, each edge a clause that must not hold."""
    return lines(f"abducible {row('a', points)}", "goal -open",
                 [f"open <- -a{i} -a{j}" for i, j in edges(seed, points, count)])


def hitting(seed, points, count):
    """Smallest sets that meet each of several triples."""
    dice = Dice(seed)
    return lines(f"abducible {row('a', points)}",
                 ["-> " + " | ".join(dice.some(names("a", points), 3)) for _ in range(count)])


def pigeons(count, holes):
    """Pigeons into too few holes: no set."""
    return lines("abducible " + " ".join(f"p{i}h{j}" for i in range(count) for j in range(holes)),
                 ["-> " + " | ".join(f"p{i}h{j}" for j in range(holes)) for i in range(count)],
                 [f"p{i}h{j} p{k}h{j} ->" for j in range(holes) for i in range(count) for k in range(i)])


def colours(seed, points, count):
    """A graph in three colours, each point's constraints behind it."""
    graph = edges(seed, points, count)
    text = ["abducible " + " ".join(f"{c}{i}" for i in range(1, points + 1) for c in "rgb")]
    for j in range(1, points + 1):
        text.append(f"-> r{j} | g{j} | b{j}")
        text += [f"{c}{i} {c}{j} ->" for i, end in graph if end == j for c in "rgb"]
    return lines(text)


def triples(seed, atoms, count):
    """Constraints of three literals each, half of them negated."""
    dice = Dice(seed)
    return lines(f"abducible {row('a', atoms)}",
                 ["-> " + " | ".join(dice.literal(a, 5) for a in dice.some(names("a", atoms), 3))
                  for _ in range(count)])


def adder(bits, left, right, seen):
    """Which gates of an adder are stuck, given two numbers and the sum that was seen."""
    goal = [f"s{i}" if seen >> i & 1 else f"-s{i}" for i in range(bits)]
    goal.append(f"c{bits}" if seen >> bits & 1 else f"-c{bits}")
    text = ["abducible " + " ".join(f"{gate}{i}" for i in range(bits) for gate in ("fx", "fs", "fg", "fh", "fo")),
            "goal " + " ".join(goal)]
    for i in range(bits):
        text += [f"x{i} <- a{i} -b{i} -fx{i}", f"x{i} <- -a{i} b{i} -fx{i}",
                 f"s{i} <- x{i} -c{i} -fs{i}", f"s{i} <- -x{i} c{i} -fs{i}",
                 f"g{i} <- a{i} b{i} -fg{i}", f"h{i} <- x{i} c{i} -fh{i}",
                 f"c{i + 1} <- g{i} -fo{i}", f"c{i + 1} <- h{i} -fo{i}"]
        text += [f"a{i} <-"] * (left >> i & 1) + [f"b{i} <-"] * (right >> i & 1)
    return lines(text)


def table(seed, goals, each, tenths):
    """Goals with many clauses each, two literals over 64 abducibles."""
    dice = Dice(seed)
    return lines("abducible " + row("a", 64), "goal " + row("x", goals),
                 [f"{x} <- {dice.body(names('a', 64), 2, tenths)}" for x in names("x", goals) for _ in range(each)])


def layers(seed, abducibles, depth, width, each, goals):
    """Layers of atoms, each atom with several clauses over the layer below."""
    dice = Dice(seed)
    below = names("a", abducibles)
    text = ["abducible " + " ".join(below), "goal " + row(f"x{depth}_", goals)]
    for level in range(1, depth + 1):
        layer = names(f"x{level}_", width)
        text += [f"{x} <- {dice.body(below, 2, 2)}" for x in layer for _ in range(each)]
        below = layer
    return lines(text)


def thicket(seed, abducibles, defined, each):
    """Atoms with several clauses each over abducibles and the atoms before them; the last two are wanted."""
    dice = Dice(seed)
    assumed = names("a", abducibles)
    text = ["abducible " + " ".join(assumed), f"goal m{defined} m{defined - 1}"]
    for i, m in enumerate(names("m", defined)):
        before = names("m", i) or assumed
        text += [f"{m} <- {dice.body(assumed, 1, 3)} {dice.body(before, 1, 3)}" for _ in range(each)]
    return lines(text)


def checks(choices, count):
    """A few choices, each then held against many constraints whose conditions were all observed."""
    observed = " ".join(names("seen", 7))
    return lines(f"abducible {row('a', choices)} {row('b', choices)}", "goal " + row("x", choices),
                 [f"x{i} <- {letter}{i}" for i in range(1, choices + 1) for letter in "ab"],
                 [f"{seen} <-" for seen in names("seen", 7)], "fine <-",
                 [f"{observed} -> fine" for _ in range(count)])


def searches():
    """Long searches with few clauses and with many, long lists, and searches that are refused."""
    yield Entry("facts-2x16", facts(2, 16))
    yield Entry("facts-18x4", facts(18, 4))
    yield Entry("parity-15", parity(15))
    yield Entry("covers-16", covers(1, 16, 16))
    yield Entry("breaks-17", breaks(2, 20, 17))
    yield Entry("pigeons-4", pigeons(4, 3))
    yield Entry("colours-6", colours(1, 6, 9))
    yield Entry("triples-18", triples(2, 8, 18))
    yield Entry("adder-3", adder(3, 7, 1, 4))
    yield Entry("checks-128", checks(7, 128))
    yield Entry("layers-72", layers(8, 30, 3, 12, 2, 3))
    yield Entry("table-96", table(3, 4, 24, 3))
    yield Entry("table-512", table(1, 2, 256, 3))
    yield Entry("thicket-380", thicket(17, 64, 190, 2))
    yield Entry("layers-504", layers(2, 64, 3, 56, 3, 1))
    yield Entry("pairs-10", pairs(10))
    yield Entry("hitting-10", hitting(16, 32, 10))
    yield Entry("budget-pigeons", pigeons(6, 5))
    yield Entry("budget-layers", layers(1, 64, 3, 42, 4, 1))
    yield Entry("room-hitting", hitting(16, 32, 10), room=256)


def entries():
    """All books of the benchmark."""
    return [*families(), *survey(), *searches()]


def write(folder):
    """The images and the index."""
    folder.mkdir(parents=True, exist_ok=True)
    index = []
    for entry in entries():
        book = Book(entry.text)
        assert book.fits(), entry.name
        (folder / entry.name).write_bytes(book.image())
        index.append(f"{folder / entry.name} {entry.budget} {entry.room}\n")
    (folder / "index").write_text("".join(index))


if __name__ == "__main__":
    if len(sys.argv) != 2:
        sys.exit(__doc__)
    write(Path(sys.argv[1]))
