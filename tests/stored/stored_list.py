"""Stored cases of operation 3, the lister.

Written from the specification alone; shares no code with the engine.
An answer written by hand has the short form `listed 2 nodes 15: 1 2` or
`refused 30 nodes 14`, a book's own fault `refused 9 nodes 0 at 13`; the entries
and the work area behind it follow from the rules. None stands where only the implementation was asked.
"""

from tests.stored import books, places
from tests.implementation.answers import line_list, pack_list
from tests.implementation.notation import image
from tests.implementation.search import LIST_BEFORE

WORK = 16384
TOP = 1 << 63
ALL = (1 << 64) - 1

# (name, image, node number, sets): a search that is finished. Each is run with
# budgets about its node number and rooms about its count.
P_TABLE = [
    ("P1", books.P1, 15, [1, 2]),
    ("P5", books.P5, 16, [2]),
    ("P6", books.P6, 8, [1, 2]),
    ("a fact and a rule", books.FACT_AND_RULE, 8, [1, 2]),
    ("a fact and a rule with a goal", books.FACT_AND_RULE_WITH_GOAL, 8, [1, 2]),
    ("P7", books.P7, 1, [0]),
    ("P8", books.P8, 6, [1]),
    ("P9", books.P9, 7, [0]),
    ("P10", books.P10, 6, []),
    ("P11", books.P11, 7, [0]),
]

# The soundings of the specification as it words them: (name, image, budget, room, answer).
SOUNDINGS = [
    ("P1 as printed, budget 15", books.P1, 15, 256, "listed 2 nodes 15: 1 2"),
    ("P2, budget 14", books.P1, 14, 256, "refused 30 nodes 14"),
    ("P3, room 1, budget 10", books.P1, 10, 1, "refused 31 nodes 10"),
    ("P4, room 1, budget 9", books.P1, 9, 1, "refused 30 nodes 9"),
    ("P5, budget 100,000", books.P5, 100_000, 256, "listed 1 nodes 16: 2"),
    ("P6, budget 100,000", books.P6, 100_000, 256, "listed 2 nodes 8: 1 2"),
    ("P7, budget 100,000", books.P7, 100_000, 256, "listed 1 nodes 1: 0"),
    ("P7 with budget 0", books.P7, 0, 256, "refused 30 nodes 0"),
    ("P8, room 1", books.P8, 100_000, 1, "listed 1 nodes 6: 1"),
    ("P9, budget 100,000", books.P9, 100_000, 256, "listed 1 nodes 7: 0"),
    ("P10, budget 100,000", books.P10, 100_000, 256, "listed 0 nodes 6:"),
    ("P11, budget 100,000", books.P11, 100_000, 256, "listed 1 nodes 7: 0"),
]

# Finished searches: (name, book, node number, sets in order).
FINISHED = [
    ("an abducible", "abducible a; goal a", 2, [1]),
    ("an abducible not wanted", "abducible a; goal -a", 2, [0]),
    ("a want already in T", "abducible a; goal a a", 3, [1]),
    ("a want already in F", "abducible a; goal -a -a", 3, [0]),
    ("a then not a", "abducible a; goal a -a", 2, []),
    ("not a then a", "abducible a; goal -a a", 2, []),
    ("no clause", "goal u", 1, []),
    ("no clause, not wanted", "goal -u", 2, [0]),
    ("a fact", "goal f; f <-", 2, [0]),
    ("a fact not wanted", "goal -f; f <-", 2, []),
    ("two clauses", "abducible a b; goal x; x <- a; x <- b", 5, [1, 2]),
    ("two clauses not wanted", "abducible a b; goal -x; x <- a; x <- b", 6, [0]),
    ("two body literals not wanted", "abducible a b; goal -x; x <- a b", 6, [0]),
    ("a negated body literal not wanted", "abducible a; goal -x; x <- -a", 4, [1]),
    ("a defined atom wanted twice", "abducible a b; goal x x; x <- a; x <- b", 7, [1, 2]),
    ("x then not x", "abducible a; goal x -x; x <- a", 3, []),
    ("not x then x", "abducible a; goal -x x; x <- a", 4, []),
    ("not x twice", "abducible a; goal -x -x; x <- a", 5, [0]),
    ("an empty constraint", "abducible a; ->", 1, []),
    ("a condition alone", "abducible a; a ->", 3, [0]),
    ("a negated condition alone", "abducible a; -a ->", 3, [1]),
    ("an alternative alone", "abducible a; -> a", 3, [1]),
    ("two alternatives", "abducible a b; -> a | b", 5, [1, 2]),
    ("an alternative of two", "abducible a b; -> a b", 4, [3]),
    ("a condition and an alternative", "abducible a b; a -> b", 5, [0]),
    ("a negated condition and an alternative", "abducible a b; -a -> b", 5, [1, 2]),
    ("{2} before {0,1}", "abducible a b c; goal x; x <- a b; x <- c", 6, [4, 3]),
    ("T kept while a break runs", "abducible a b; goal a -x; x <- a b", 6, [1]),
    ("a shared atom expanded once", "abducible a; goal x y; x <- s; y <- s; s <- a", 6, [1]),
    ("two breaks of two", "abducible a b c d; goal -x; x <- a b; x <- c d", 14, [0]),
    ("the same set twice", "abducible a; goal x; x <- a; x <- a", 5, [1]),
    ("a greater set after a smaller", "abducible a b; goal x; x <- a; x <- a b", 6, [1]),
    ("two sets dropped for one", "abducible a b c; goal x; x <- a b; x <- a c; x <- a", 9, [1]),
    ("a set dropped, another kept", "abducible a b c; goal x; x <- a b; x <- c; x <- a", 8, [1, 4]),
    ("the empty set drops all", "abducible a b; goal x; x <- a; x <- b; x <-", 6, [0]),
    ("the empty set keeps all out", "abducible a b; goal x; x <-; x <- a; x <- b", 6, [0]),
    ("the highest abducible", books.abducibles(64) + "goal a63", 2, [TOP]),
    ("the lowest after the highest", books.abducibles(64) + "goal x; x <- a63; x <- a0", 5, [1, TOP]),
    ("one high member before two low", books.abducibles(64) + "goal x; x <- a0 a1; x <- a63", 6, [TOP, 3]),
    ("all 64 abducibles", books.abducibles(64) + "goal x; x <- " + books.abducibles(64)[10:-2], 66, [ALL]),
    ("the full set dropped for one member",
     books.abducibles(64) + "goal x; x <- " + books.abducibles(64)[10:-2] + "; x <- a40", 68, [1 << 40]),
    ("three sets by value", "abducible a b c; goal x; x <- c; x <- b; x <- a", 7, [1, 2, 4]),
    ("pairs by value",
     "abducible a b c; goal x; x <- b c; x <- a c; x <- a b", 10, [3, 5, 6]),
    ("a chain of 256 facts deep",
     "goal p0; " + "; ".join(f"p{i} <- p{i + 1}" for i in range(255)) + "; p255 <-", 257, [0]),
    ("a body of 1,024", "abducible a; goal x; x <- " + "a " * 1024, 1026, [1]),
    ("a long deep path of 2,192 tasks",
     "abducible a; goal " + "x " * 16 + "; x <- " + "a " * 1024 + ("; -> " + "a " * 8) * 128, 2193, [1]),
    ("512 breaks one after another", "abducible a; goal -x" + "; x <- a" * 512, 1 + 1 + 512 * 2, [0]),
    ("512 clauses of one atom", "abducible a; goal x" + "; x <- a" * 512, 1 + 512 * 2, [1]),
    ("1,024 alternatives of one", "abducible a; -> " + "| ".join(["a "] * 1024), 1 + 1024 * 2, [1]),
    ("1,024 conditions of one", "abducible a; " + "a " * 1024 + "->", 1 + 1024 * 2, [0]),
    ("a condition that is true by a fact", "abducible a; f <-; f -> a", 5, [1]),
    ("alternatives tried after conditions", "abducible a b; goal a; a -> b", 5, [3]),
    ("goal before constraints", "abducible a b; goal b; -> a", 4, [3]),
]

# (name, image, budget, room, work length, answer or None)
SINGLE = [
    ("room 0 and no set", books.P10, 100, 0, WORK, "listed 0 nodes 6:"),
    ("room 0 and a set", books.P1, 100, 0, WORK, "refused 31 nodes 5"),
    ("room 0 and the empty set", books.P7, 100, 0, WORK, "refused 31 nodes 1"),
    ("room 0 and budget 0", books.P7, 0, 0, WORK, "refused 30 nodes 0"),
    ("room 0, budget up to the success", books.P1, 5, 0, WORK, "refused 31 nodes 5"),
    ("room 0, budget one short of the success", books.P1, 4, 0, WORK, "refused 30 nodes 4"),
    ("P5, room 0", books.P5, 100, 0, WORK, "refused 31 nodes 13"),
    ("P6, room 0", books.P6, 100, 0, WORK, "refused 31 nodes 6"),
    ("P6, room 1", books.P6, 100, 1, WORK, "refused 31 nodes 8"),
    ("P6, room 1, budget 7", books.P6, 7, 1, WORK, "refused 30 nodes 7"),
    ("P6, room 1, budget 8", books.P6, 8, 1, WORK, "refused 31 nodes 8"),
    ("P9, room 0", books.P9, 100, 0, WORK, "refused 31 nodes 4"),
    ("P9, room 1", books.P9, 100, 1, WORK, "listed 1 nodes 7: 0"),
    ("31 on the way though the end fits",
     image("abducible a b c; goal x; x <- a b; x <- a c; x <- a"), 100, 1, WORK, "refused 31 nodes 7"),
    ("just room on the way",
     image("abducible a b c; goal x; x <- a b; x <- a c; x <- a"), 100, 2, WORK, "listed 1 nodes 9: 1"),
    ("31 on the way though the empty set ends it",
     image("abducible a b; goal x; x <- a; x <- b; x <-"), 100, 1, WORK, "refused 31 nodes 5"),
    ("a greater set needs no room",
     image("abducible a b; goal x; x <- a; x <- a b"), 100, 1, WORK, "listed 1 nodes 6: 1"),
    ("a set dropped gives its room",
     image("abducible a b c; goal x; x <- a b; x <- c; x <- a"), 100, 2, WORK, "listed 2 nodes 8: 1 4"),
    ("work length 0", books.P1, 100, 4, 0, "refused 21 nodes 0"),
    ("work length 1", books.P1, 100, 4, 1, "refused 21 nodes 0"),
    ("work length 16,383", books.P1, 100, 4, 16383, "refused 21 nodes 0"),
    ("work length 16,384", books.P1, 100, 4, 16384, "listed 2 nodes 15: 1 2"),
    ("work length 16,385", books.P1, 100, 4, 16385, "listed 2 nodes 15: 1 2"),
    ("work length 20,000", books.P1, 100, 4, 20000, "listed 2 nodes 15: 1 2"),
    ("work length 20,000, budget used up", books.P1, 3, 4, 20000, "refused 30 nodes 3"),
    ("work length 20,000, no room", books.P1, 100, 1, 20000, "refused 31 nodes 10"),
    ("room 1,023", books.P1, 100, 1023, WORK, "listed 2 nodes 15: 1 2"),
    ("room 1,024", books.P1, 100, 1024, WORK, "listed 2 nodes 15: 1 2"),
    ("room 1,025", books.P1, 100, 1025, WORK, "refused 20 nodes 0"),
    ("room 1,100", books.P1, 100, 1100, WORK, "refused 20 nodes 0"),
    ("budget 1,000,000", books.P1, 1_000_000, 4, WORK, "listed 2 nodes 15: 1 2"),
    ("budget 1,000,001", books.P1, 1_000_001, 4, WORK, "refused 22 nodes 0"),
    ("budget of 32 bits set", books.P1, (1 << 32) - 1, 4, WORK, "refused 22 nodes 0"),
    ("budget of the highest bit", books.P1, 1 << 31, 4, WORK, "refused 22 nodes 0"),
    ("list, work and budget all wrong", books.P1, 1_000_001, 1025, 16383, "refused 20 nodes 0"),
    ("list and budget wrong", books.P1, 1_000_001, 1025, WORK, "refused 20 nodes 0"),
    ("work and budget wrong", books.P1, 1_000_001, 4, 16383, "refused 21 nodes 0"),
    ("list and work wrong", books.P1, 100, 1025, 16383, "refused 20 nodes 0"),
    ("budget 0 and work wrong", books.P1, 0, 4, 16383, "refused 21 nodes 0"),
    ("a loop and list, work and budget wrong", image("p <- p"), 1_000_001, 1025, 0, "refused 9 nodes 0 at 13"),
    ("2 pairs", books.pairs(2), 100, 5, WORK, "listed 4 nodes 13: 5 6 9 10"),
    ("3 pairs", books.pairs(3), 100, 8, WORK, "listed 8 nodes 29: 21 22 25 26 37 38 41 42"),
    ("3 pairs, one entry short", books.pairs(3), 100, 7, WORK, "refused 31 nodes 29"),
    ("3 pairs, one node short", books.pairs(3), 28, 8, WORK, "refused 30 nodes 28"),
    ("1,024 smallest sets, one entry short", books.pairs(10), 100_000, 1023, WORK, "refused 31 nodes 4093"),
    ("1,024 smallest sets, one node short", books.pairs(10), 4092, 1024, WORK, "refused 30 nodes 4092"),
    ("2,048 smallest sets", books.pairs(11), 100_000, 1024, WORK, None),
    ("250 layers", books.LAYERS, 1000, 2, WORK, "listed 1 nodes 503: 1"),
    ("250 layers, one node short", books.LAYERS, 502, 2, WORK, "refused 30 nodes 502"),
    ("255 negations", books.NEGATIONS, 1000, 2, WORK, "listed 1 nodes 384: 0"),
    ("255 negations, one node short", books.NEGATIONS, 383, 2, WORK, "refused 30 nodes 383"),
    ("the deepest path", books.DEEPEST, 2704, 1, WORK, "listed 1 nodes 2704: 1"),
    ("the deepest path, one node short", books.DEEPEST, 2703, 1, WORK, "refused 30 nodes 2703"),
    ("256 marks, 512 breaks and 128 constraints on one path", books.FULLEST, 2193, 1, WORK, "listed 1 nodes 2193: 0"),
    ("512 breaks and 128 constraints left open", books.MOST_OPEN, 1923, 1, WORK, "listed 1 nodes 1923: 2"),
    ("512 breaks and 128 constraints left open, one node short", books.MOST_OPEN, 1922, 1, WORK, "refused 30 nodes 1922"),
    ("512 breaks and 128 constraints left open, no room", books.MOST_OPEN, 1923, 0, WORK, "refused 31 nodes 1283"),
    ("a search of 1,000,000 nodes, finished",
     books.facts([3, 4, 4, 4, 41, 126]), 1_000_000, 1, WORK, "listed 1 nodes 1000000: 0"),
    ("a search of 1,000,000 nodes, one short",
     books.facts([3, 4, 4, 4, 41, 126]), 999_999, 1, WORK, "refused 30 nodes 999999"),
    ("a greater search than the greatest budget",
     books.facts([3] * 13), 1_000_000, 3, WORK, "refused 30 nodes 1000000"),
    ("797,161 nodes", books.facts([3] * 12), 1_000_000, 1, WORK, "listed 1 nodes 797161: 0"),
    ("131,071 nodes", books.facts([2] * 16), 200_000, 1, WORK, "listed 1 nodes 131071: 0"),
] + [
    (f"refusal {number} passed on", packed, 100, 3, WORK, f"refused {number} nodes 0 at {books.PLACES[number]}")
    for number, packed in books.REFUSED
] + [
    (f"refusal {number} before 20, 21 and 22", packed, 1_000_001, 1025, 3, f"refused {number} nodes 0 at {books.PLACES[number]}")
    for number, packed in books.REFUSED
] + [
    (name, packed, *((100, 3, WORK), (1_000_001, 1, 3))[turn % 2], f"refused {number} nodes 0 at {place}")
    for turn, (name, packed, number, place) in enumerate(places.third(1))
]


def cycle(count):
    """Abducibles in a circle, one of each two neighbours needed."""
    return books.abducibles(count) + "; ".join(f"-> a{i} | a{(i + 1) % count}" for i in range(count))


def colours(edges, nodes, count):
    """A colour for each node, neighbours with different ones."""
    names = [f"n{n}c{c}" for n in range(nodes) for c in range(count)]
    some = ["-> " + " | ".join(f"n{n}c{c}" for c in range(count)) for n in range(nodes)]
    apart = [f"n{n}c{c} n{m}c{c} ->" for n, m in edges for c in range(count)]
    return "abducible " + " ".join(names) + "; " + "; ".join(some + apart)


# Books with more to do, asked of the implementation: (name, book, room).
WORKED = [
    ("covers of a circle of 3", cycle(3), 4),
    ("covers of a circle of 4", cycle(4), 4),
    ("covers of a circle of 5", cycle(5), 5),
    ("covers of a circle of 6", cycle(6), 20),
    ("covers of a circle of 6, room 6", cycle(6), 6),
    ("covers of a circle of 7", cycle(7), 30),
    ("covers of a circle of 7, room 7", cycle(7), 7),
    ("covers of a circle of 8", cycle(8), 50),
    ("covers of a circle of 8, room 12", cycle(8), 12),
    ("covers of a circle of 8, room 3", cycle(8), 3),
    ("a triangle in two colours", colours([(0, 1), (1, 2), (2, 0)], 3, 2), 4),
    ("a triangle in three colours", colours([(0, 1), (1, 2), (2, 0)], 3, 3), 8),
    ("a path of four in two colours", colours([(0, 1), (1, 2), (2, 3)], 4, 2), 4),
    ("exactly one of three",
     "abducible a b c; goal one; one <- a -b -c; one <- -a b -c; one <- -a -b c", 4),
    ("not exactly one of three",
     "abducible a b c; goal -one; one <- a -b -c; one <- -a b -c; one <- -a -b c", 4),
    ("at least two of four, by constraints",
     "abducible a b c d; -> a | b | c; -> a | b | d; -> a | c | d; -> b | c | d", 8),
    ("which gate is broken",
     "abducible g1 g2 g3; goal out; out <- g1; out <- m -g1; m <- g2 -g3; m <- n n; n <- g3 -g2; g1 -> g2 | g3", 6),
    ("reasons of reasons",
     "abducible a b c d; goal w; w <- x y; w <- z; x <- a; x <- b; y <- c; y <- -z; z <- d -x; c -> -a | d", 6),
    ("negation of negation of choice",
     "abducible a b c; goal -p; p <- -q; q <- r -s; r <- a; r <- b; s <- a b; s <- c", 6),
    ("constraint with defined alternatives",
     "abducible a b c; -> x | y -x; x <- a b; y <- c; y <- -a; c -> b", 6),
    ("constraint met only by its second alternative",
     "abducible a b; goal a; a -> -a | b", 3),
    ("conditions on both sides", "abducible a b c; goal x; x <- a; x <- b -c; a -> c; b -> -a | c; c -> b", 4),
    ("a set found late and small",
     "abducible a b c d; goal x; x <- a b c; x <- b c d; x <- a c d; x <- d; x <- b", 4),
    ("the same, with little room",
     "abducible a b c d; goal x; x <- a b c; x <- b c d; x <- a c d; x <- d; x <- b", 2),
    ("16 abducibles wanted", books.abducibles(16) + "goal " + " ".join(f"a{i}" for i in range(16)), 2),
    ("sets of every size", books.abducibles(5) + "goal x; x <- a0 a1 a2 a3; x <- a1 a2 a4; x <- a0 a4; x <- a3 a4", 5),
    ("members 31, 32 and 63",
     books.abducibles(64) + "goal x y; x <- a31; x <- a32; y <- a63; y <- a32 a0", 5),
]


def sweeps():
    """Budgets about the exact node number and rooms about the exact count."""
    for name, packed, nodes, sets in P_TABLE:
        room = len(sets) + 1
        for budget in sorted({0, 1, nodes - 1, nodes, nodes + 1}):
            if budget < nodes:
                answer = f"refused 30 nodes {budget}"
            else:
                answer = listed(nodes, sets)
            yield f"{name}, budget {budget}", packed, budget, room, WORK, answer
        yield f"{name}, exact budget and room {len(sets)}", packed, nodes, len(sets), WORK, listed(nodes, sets)
    for budget in range(2, 14):
        yield f"P1, budget {budget}, room 2", books.P1, budget, 2, WORK, f"refused 30 nodes {budget}"


def listed(nodes, sets):
    """The short form of a finished search."""
    return f"listed {len(sets)} nodes {nodes}:" + "".join(f" {s}" for s in sets)


def ten_pairs():
    """The list of ten pairs: a member of each pair, all sets of ten members."""
    sets = [0]
    for pair in range(10):
        sets = [s + (choice << 2 * pair) for choice in (1, 2) for s in sets]
    return sets


def table():
    for name, packed, budget, room, answer in SOUNDINGS:
        yield name, packed, budget, room, WORK, answer
    yield from sweeps()
    for name, text, nodes, sets in FINISHED:
        yield name, image(text), 10_000, len(sets) + 1, WORK, listed(nodes, sets)
    yield from SINGLE
    yield "1,024 smallest sets", books.pairs(10), 4093, 1024, WORK, listed(4093, ten_pairs())
    for name, text, room in WORKED:
        yield name, image(text), 100_000, room, WORK, None


def full_line(short, room):
    """The whole line of a short form: the room's entries and the work area."""
    answer, _, sets = short.partition(":")
    entries = sets.split()
    searched = not answer.startswith("refused") or answer.split()[1] in ("30", "31")
    filling = "0" if searched else str(LIST_BEFORE)
    entries += [filling] * (room - len(entries))
    return " ".join([answer, "sets", *entries, "work", "clean" if searched else "untouched"])


def stored():
    """(name, packed case, line); an answer written by hand is met by the lister."""
    for name, packed, budget, room, work, short in table():
        answer = line_list(packed, budget, room, work)
        if short is not None:
            assert answer == full_line(short, room), (name, answer, full_line(short, room))
        yield name, pack_list(packed, budget, room, work), answer
