"""Stored cases of operation 2, the judge.

Written from the specification alone; shares no code with the engine.
Every answer is written by hand: e explains, g a false goal literal's place,
c a broken constraint's place, r a refusal, with @ before its place in the image.
"""

from tests.stored import books, places
from tests.implementation.answers import line_judge, pack_judge
from tests.implementation.notation import image, rest

WORDS = {"e": "explains", "g": "goal", "c": "constraint", "r": "refused"}

# (name, image, the answers on the sets 0, 1, 2 and on)
ALL_SETS = [
    ("P1", books.P1, "g0 e e e c0 c0 c0 c0"),
    ("P5", books.P5, "g0 c0 e c0 g0 c1 c1 c1"),
    ("P6", books.P6, "g0 e e e"),
    ("a fact and a rule", books.FACT_AND_RULE, "c0 e e e"),
    ("a fact and a rule with a goal", books.FACT_AND_RULE_WITH_GOAL, "c0 e e e"),
    ("P7", books.P7, "e r23 r23"),
    ("P8", books.P8, "g0 e g0 e"),
    ("P9", books.P9, "e g0 g0 e"),
    ("P10", books.P10, "c1 c0 c1 c0"),
    ("P11", books.P11, "e g0 e e"),
    ("an abducible wanted", image("abducible a; goal a"), "g0 e r23"),
    ("an abducible not wanted", image("abducible a; goal -a"), "e g0"),
    ("an abducible and its negation wanted", image("abducible a; goal a -a"), "g0 g1"),
    ("two abducibles wanted", image("abducible a b; goal a b"), "g0 g1 g0 e"),
    ("a implies b", image("abducible a b; a -> b"), "e c0 e e"),
    ("a or b", image("abducible a b; -> a | b"), "c0 e e e"),
    ("a and b", image("abducible a b; -> a b"), "c0 c0 c0 e"),
    ("not both", image("abducible a b; a b ->"), "e e e c0"),
    ("not neither", image("abducible a b; -a -b ->"), "c0 e e e"),
    ("never", image("abducible a; ->"), "c0 c0"),
    ("three constraints in a row", image("abducible a b; a -> b; b -> a; -> a | b"), "c2 c0 c1 e"),
    ("an alternative that always helps", image("abducible a b; a -> -b | b a"), "e e e e"),
    ("alternatives that never help", image("abducible a b; a -> -b -a | b -b"), "e c0 e c0"),
    ("one or the other", image("abducible a b; goal x; x <- a -b; x <- -a b"), "g0 e e g0"),
    ("three negations in a row", image("abducible a; goal x; x <- -y; y <- -z; z <- -a"), "e g0"),
    ("an atom without clauses wanted", image("abducible a; goal u"), "g0 g0"),
    ("an atom without clauses not wanted", image("abducible a; goal -u"), "e e"),
    ("a fact wanted", image("abducible a; goal f; f <-"), "e e"),
    ("a fact not wanted", image("abducible a; goal -f; f <-"), "g0 g0"),
    ("a fact beside a clause", image("abducible a; goal f; f <- a; f <-"), "e e"),
    ("a constraint on a defined atom", image("abducible a b; x <- a; x <- b; x -> a b"), "e c0 c0 e"),
    ("goal before constraints", image("abducible a b c; goal a; a -> b | c; b c ->"), "g0 c0 g0 e g0 e g0 c1"),
    ("a true and a false goal literal", image("abducible a b; goal x -y; x <- a; y <- a b"), "g0 e g0 g1"),
    ("a goal named twice", image("abducible a; goal a a -a"), "g0 g2"),
    ("a body that is never true", image("abducible a; goal x; x <- a -a"), "g0 g0"),
    ("a condition that is never true", image("abducible a; a -a ->"), "e e"),
    ("a shared atom", image("abducible a b; goal x y; x <- s a; y <- s -b; s <- a; s <- b"), "g0 e g0 g1"),
    ("no abducible", image("goal x; x <- -y; -y -> x"), "e"),
    ("no abducible, goal false", image("goal y x; x <- -y"), "g0"),
]

SIXTEEN = " ".join(f"a{i}" for i in range(16))
FULL = books.abducibles(64)
TOP = 1 << 63
ALL = (1 << 64) - 1

# (name, image, set, answer)
SINGLE = [
    ("250 layers, true", books.LAYERS, 1, "e"),
    ("250 layers, false", books.LAYERS, 0, "g0"),
    ("255 negations, a false", books.NEGATIONS, 0, "e"),
    ("255 negations, a true", books.NEGATIONS, 1, "g0"),
    ("16 goal literals, the last false", image(books.abducibles(16) + "goal " + SIXTEEN), 0x7FFF, "g15"),
    ("16 goal literals, the first false", image(books.abducibles(16) + "goal " + SIXTEEN), 0xFFFE, "g0"),
    ("16 goal literals, all true", image(books.abducibles(16) + "goal " + SIXTEEN), 0xFFFF, "e"),
    ("128 constraints, the last broken", image("abducible a b" + "; -> a" * 127 + "; -> b"), 1, "c127"),
    ("128 constraints, the first broken", image("abducible a b; -> b" + "; -> a" * 127), 1, "c0"),
    ("128 constraints, all hold", image("abducible a b" + "; -> a" * 127 + "; -> b"), 3, "e"),
    ("the highest of 64 abducibles wanted, there", image(FULL + "goal a63"), TOP, "e"),
    ("the highest of 64 abducibles wanted, not there", image(FULL + "goal a63"), TOP - 1, "g0"),
    ("the highest of 64 abducibles wanted false", image(FULL + "goal -a63"), TOP, "g0"),
    ("all 64 abducibles wanted", image(FULL + "goal x; x <- " + FULL[10:-2]), ALL, "e"),
    ("all 64 abducibles wanted, the lowest missing", image(FULL + "goal x; x <- " + FULL[10:-2]), ALL - 1, "g0"),
    ("all 64 abducibles wanted, number 31 missing",
     image(FULL + "goal x; x <- " + FULL[10:-2]), ALL - (1 << 31), "g0"),
    ("all 64 abducibles, none wanted", image(FULL), ALL, "e"),
    ("abducibles 31 and 32", image(FULL + "goal a31 a32"), 3 << 31, "e"),
    ("abducible 32 for 0", image(FULL + "goal a0"), 1 << 32, "g0"),
    ("no abducible, set 1", rest("0001 0000 0000 0000 0000"), 1, "r23"),
    ("no abducible, highest bit", rest("0001 0000 0000 0000 0000"), TOP, "r23"),
    ("no abducible, all bits", rest("0001 0000 0000 0000 0000"), ALL, "r23"),
    ("63 abducibles, highest bit", image(books.abducibles(63)), TOP, "r23"),
    ("63 abducibles, all below it", image(books.abducibles(63)), TOP - 1, "e"),
    ("three abducibles, number 3", books.P1, 8, "r23"),
    ("three abducibles, number 3 beside 0", books.P1, 9, "r23"),
    ("three abducibles, number 35", books.P1, 1 << 35, "r23"),
    ("three abducibles, number 63 beside all", books.P1, TOP + 7, "r23"),
    ("a set beyond B where the goal is false", books.P8, 4, "r23"),
    ("a set beyond B where constraints never hold", image("abducible a; ->"), 2, "r23"),
    ("a body of 1,024 literals, the last false",
     image("abducible a b; goal x; x <- " + "a " * 1023 + "b"), 1, "g0"),
    ("a body of 1,024 literals, all true", image("abducible a b; goal x; x <- " + "a " * 1023 + "b"), 3, "e"),
    ("512 clauses, the last true", image("abducible a b; goal x" + "; x <- a -a" * 511 + "; x <- b"), 2, "e"),
    ("512 clauses, none true", image("abducible a b; goal x" + "; x <- a -a" * 511 + "; x <- b"), 1, "g0"),
    ("1,024 alternatives, the last true", image("abducible a b; -> " + "a | " * 1023 + "b"), 2, "e"),
    ("1,024 alternatives, none true", image("abducible a b; -> " + "a | " * 1023 + "b"), 0, "c0"),
    ("1,024 conditions, the last false", image("abducible a b; " + "a " * 1023 + "b ->"), 1, "e"),
    ("1,024 conditions, all true", image("abducible a b; " + "a " * 1023 + "b ->"), 3, "c0"),
    ("clauses of one atom apart from each other", image("abducible a b; goal x y; x <- a; y <- b; x <- b"), 2, "e"),
    ("an atom from one with a lower number", image("abducible a; goal y; x <- a; y <- x"), 1, "e"),
    ("an atom from one with a higher number", image("abducible a; goal x; x <- y; y <- a"), 1, "e"),
    ("a clause atom beyond the goal's", image("abducible a; goal a; z <- -a; z ->"), 1, "e"),
    ("a broken constraint beyond the goal's atoms", image("abducible a; goal -a; z <- -a; z ->"), 0, "c0"),
] + [
    (f"refusal {number} passed on", packed, 0, f"r{number}@{books.PLACES[number]}") for number, packed in books.REFUSED
] + [
    (f"refusal {number} before 23", packed, ALL, f"r{number}@{books.PLACES[number]}") for number, packed in books.REFUSED
] + [
    (name, packed, (0, ALL)[turn % 2], f"r{number}@{place}") for turn, (name, packed, number, place) in enumerate(places.third(0))
]


def in_words(short):
    """The line of an answer in short form."""
    return (WORDS[short[0]] + " " + short[1:].replace("@", " at ")).strip()


def members(number):
    """A set's name, as {0,2}."""
    return "{" + ",".join(str(j) for j in range(64) if number >> j & 1) + "}"


def table():
    for name, packed, answers in ALL_SETS:
        for assumed, answer in enumerate(answers.split()):
            yield f"{name}, {members(assumed)}", packed, assumed, answer
    yield from SINGLE


def stored():
    """(name, packed case, line), each answer written by hand and met by the judge."""
    for name, packed, assumed, short in table():
        answer = in_words(short)
        assert line_judge(packed, assumed) == answer, (name, line_judge(packed, assumed), answer)
        yield name, pack_judge(packed, assumed), answer
