"""Broken books with the place of their fault, for the tables of stored cases: (name, image, number and place written by hand).

Written from the specification alone (paper 02, A2); shares no code with the engine.
The number 0 stands for accepted and has no place.
"""

from tests.implementation.notation import image, rest
from tests.implementation.reader import framed

# A sound book with every kind of field, most of them twice; where each stands.
#   5 A        7 B        9 goal count     11 13 goal literals
#  15 clause count        17 record 19 head        21 record 23 head 25 27 body        29 record 31 head 33 body
#  35 constraint count    37 record 39 condition count 41 43 conditions  45 count 47 literal  49 count 51 53 literals
#                         55 record 57 condition count 59 count 61 literal             63 the end
EVERY_FIELD = rest("0004 0002 0002 0000 0005 "
                   "0003 0002 0002 0006 0003 0001 0004 0004 0002 0000 "
                   "0002 0010 0002 0000 0003 0001 0004 0002 0005 0000 0006 0000 0001 0007")


def put(sound, place, digits):
    """The image with these bytes at this place."""
    found = bytes.fromhex(digits)
    return sound[:place] + found + sound[place + len(found):]


def cut(sound, length):
    """So many bytes of the image, the length field set right."""
    return framed(sound[5:length])


# What the cut book has left, in bytes, and the places of its 4.
CUTS = """
    5 5    6 5    7 7    8 7    9 9   10 9   11 11  12 11  13 13  14 13  15 15  16 15  17 17  18 17  19 17  20 17
   21 21  22 21  23 21  24 21  25 21  26 21  27 21  28 21  29 29  30 29  31 29  32 29  33 29  34 29  35 35  36 35
   37 37  38 37  39 37  40 37  41 37  42 37  43 37  44 37  45 37  46 37  47 37  48 37  49 37  50 37  51 37  52 37
   53 37  54 37  55 55  56 55  57 55  58 55  59 55  60 55  61 55  62 55
"""

# (field, its place, what is put there, number, place)
CHANGED = [
    ("A", 5, "0000", 5, 5),
    ("A", 5, "0101", 5, 5),
    ("A", 5, "ffff", 5, 5),
    ("A", 5, "0001", 5, 7),  # B is above it
    ("A", 5, "0002", 6, 13),
    ("A", 5, "0003", 6, 23),
    ("A", 5, "0100", 0),
    ("B", 7, "0005", 5, 7),
    ("B", 7, "0041", 5, 7),
    ("B", 7, "ffff", 5, 7),
    ("B", 7, "0004", 7, 19),
    ("B", 7, "0003", 7, 19),
    ("B", 7, "0000", 0),
    ("goal count", 9, "0011", 5, 9),
    ("goal count", 9, "ffff", 5, 9),
    ("goal count", 9, "0000", 4, 15),  # no clause, five constraints, the first of length 3
    ("goal count", 9, "0001", 4, 15),  # five clauses, the first of length 3
    ("goal count", 9, "0003", 6, 21),  # two clauses, the first with head 6
    ("goal count", 9, "0010", 6, 37),
    ("first goal literal", 11, "0008", 6, 11),
    ("first goal literal", 11, "0009", 6, 11),
    ("second goal literal", 13, "0008", 6, 13),
    ("second goal literal", 13, "ffff", 6, 13),
    ("clause count", 15, "0201", 5, 15),
    ("clause count", 15, "ffff", 5, 15),
    ("clause count", 15, "0000", 4, 21),  # two constraints, the first with six conditions in no bytes
    ("clause count", 15, "0001", 4, 23),  # six constraints, the first of length 3
    ("clause count", 15, "0002", 4, 37),  # four constraints, the second with 16 conditions in no bytes
    ("clause count", 15, "0004", 6, 37),  # a fourth clause with head 16
    ("fact's record length", 17, "0000", 4, 17),
    ("fact's record length", 17, "0001", 4, 17),
    ("fact's record length", 17, "0003", 4, 17),
    ("fact's record length", 17, "0004", 4, 23),  # the next record has length 3
    ("fact's record length", 17, "002c", 6, 37),  # it ends with the image
    ("fact's record length", 17, "002e", 4, 17),
    ("fact's record length", 17, "fffe", 4, 17),
    ("fact's head", 19, "0000", 7, 19),
    ("fact's head", 19, "0001", 7, 19),
    ("fact's head", 19, "0004", 6, 19),
    ("fact's head", 19, "ffff", 6, 19),
    ("second record length", 21, "0002", 4, 25),  # the next record has length 1
    ("second record length", 21, "0004", 6, 29),  # the next head is 4
    ("second record length", 21, "0005", 4, 21),
    ("second record length", 21, "0008", 7, 33),  # the next record has head 0
    ("second record length", 21, "002a", 4, 21),
    ("second head", 23, "0001", 7, 23),
    ("second head", 23, "0004", 6, 23),
    ("second head", 23, "0002", 9, 17),  # atom 2 from itself; its fact comes first
    ("second clause's first literal", 25, "0008", 6, 25),
    ("second clause's first literal", 25, "0006", 9, 21),  # atom 3 from itself
    ("second clause's second literal", 27, "0009", 6, 27),
    ("second clause's second literal", 27, "0007", 9, 21),
    ("third record length", 29, "0000", 4, 29),
    ("third record length", 29, "0007", 4, 29),
    ("third record length", 29, "0002", 4, 35),  # no constraint, and bytes behind
    ("third record length", 29, "0006", 4, 43),  # 16 constraints, the second of length 3
    ("third head", 31, "0000", 7, 31),
    ("third head", 31, "0005", 6, 31),
    ("third head", 31, "0003", 0),
    ("third clause's literal", 33, "0008", 6, 33),
    ("third clause's literal", 33, "0004", 9, 17),
    ("third clause's literal", 33, "0007", 9, 17),  # 2 from not 3, 3 from 2
    ("constraint count", 35, "0081", 5, 35),
    ("constraint count", 35, "ffff", 5, 35),
    ("constraint count", 35, "0000", 4, 37),
    ("constraint count", 35, "0001", 4, 55),
    ("constraint count", 35, "0003", 4, 63),
    ("constraint's record length", 37, "0000", 4, 37),
    ("constraint's record length", 37, "0011", 4, 37),
    ("constraint's record length", 37, "001a", 4, 37),
    ("constraint's record length", 37, "0002", 4, 39),  # two conditions do not fit
    ("constraint's record length", 37, "0006", 4, 45),  # the next record has length 1
    ("constraint's record length", 37, "000a", 4, 51),  # the next record has five conditions in no bytes
    ("constraint's record length", 37, "000e", 4, 49),  # the second alternative does not fit
    ("constraint's record length", 37, "0012", 4, 55),  # a third alternative, of six literals
    ("constraint's record length", 37, "0018", 4, 55),  # it ends with the image
    ("condition count", 39, "0000", 8, 41),  # the first condition is taken for an alternative's count
    ("condition count", 39, "0001", 4, 51),
    ("condition count", 39, "0003", 4, 47),
    ("condition count", 39, "0007", 0),
    ("condition count", 39, "0008", 4, 39),
    ("condition count", 39, "0401", 4, 39),
    ("condition count", 39, "ffff", 4, 39),
    ("first condition", 41, "0008", 6, 41),
    ("second condition", 43, "0009", 6, 43),
    ("first alternative's count", 45, "0000", 8, 45),
    ("first alternative's count", 45, "0002", 4, 51),
    ("first alternative's count", 45, "0003", 8, 53),
    ("first alternative's count", 45, "0004", 0),
    ("first alternative's count", 45, "0005", 4, 45),
    ("first alternative's count", 45, "8001", 4, 45),
    ("first alternative's literal", 47, "0008", 6, 47),
    ("second alternative's count", 49, "0000", 8, 49),
    ("second alternative's count", 49, "0001", 8, 53),
    ("second alternative's count", 49, "0003", 4, 49),
    ("second alternative's first literal", 51, "0009", 6, 51),
    ("second alternative's second literal", 53, "ffff", 6, 53),
    ("last record length", 55, "0000", 4, 55),
    ("last record length", 55, "0002", 4, 59),  # bytes behind the last constraint
    ("last record length", 55, "0004", 4, 59),  # an alternative's literal does not fit
    ("last record length", 55, "0005", 4, 55),
    ("last record length", 55, "0008", 4, 55),
    ("last condition count", 57, "0001", 4, 61),
    ("last condition count", 57, "0002", 0),
    ("last condition count", 57, "0003", 4, 57),
    ("last alternative's count", 59, "0000", 8, 59),
    ("last alternative's count", 59, "0002", 4, 59),
    ("last literal", 61, "0008", 6, 61),
    ("last literal", 61, "0009", 6, 61),
]

# Faults with another behind them, and one at the end.
BEHIND = [
    ("every field: a byte behind the end", framed(EVERY_FIELD[5:] + b"\0"), 4, 63),
    ("every field: a field behind the end", framed(EVERY_FIELD[5:] + b"\0\2"), 4, 63),
    ("every field: bytes behind the end, and a loop", framed(put(EVERY_FIELD, 33, "0004")[5:] + b"\0"), 4, 63),
    ("every field: cut, and a loop", cut(put(EVERY_FIELD, 33, "0004"), 58), 4, 55),
    ("every field: two bad literals", put(put(EVERY_FIELD, 27, "0008"), 25, "0008"), 6, 25),
    ("every field: a bad literal in a record too long", put(put(EVERY_FIELD, 29, "0024"), 31, "0009"), 4, 29),
    ("every field: a bad literal before a record too long", put(put(EVERY_FIELD, 29, "0024"), 27, "0009"), 6, 27),
    ("every field: a bad literal before the cut", cut(put(EVERY_FIELD, 53, "0008"), 60), 6, 53),
    ("every field: a bad literal behind the cut record's length", cut(put(EVERY_FIELD, 53, "0008"), 54), 4, 37),
    ("every field: an abducible head before the cut", cut(put(EVERY_FIELD, 31, "0001"), 35), 7, 31),
    ("every field: no literal in an alternative, and then in another", put(put(EVERY_FIELD, 45, "0000"), 59, "0000"), 8, 45),
]

# Lengths and versions.
FRONT = [
    ("every field: version 2", b"\2" + EVERY_FIELD[1:], 2, 0),
    ("every field: length 57", put(EVERY_FIELD, 1, "00000039"), 3, 1),
    ("every field: length 59", put(EVERY_FIELD, 1, "0000003b"), 3, 1),
    ("every field: length wrong in its first byte", put(EVERY_FIELD, 1, "0100003a"), 3, 1),
    ("every field: four bytes of it", EVERY_FIELD[:4], 1, 4),
    ("every field: one byte of it", EVERY_FIELD[:1], 1, 1),
    ("every field: five bytes of it", EVERY_FIELD[:5], 3, 1),
    ("every field: 62 bytes of it", EVERY_FIELD[:62], 3, 1),
]

# Heads above loops, facts of heads on loops, several loops. (name, book, place of its 9)
LOOPS = [
    ("a head above p from p", "x <- p; p <- p", 19),
    ("a head above p from not p", "x <- -p; p <- -p", 19),
    ("a head above a loop of two", "x <- p; p <- q; q <- p", 19),
    ("a head above a loop, numbered behind it", "defined p q x; x <- p; p <- q; q <- p", 19),
    ("a head above a loop, behind it", "p <- q; q <- p; x <- p", 13),
    ("a head above a loop, within it", "abducible a; p <- a q; x <- p; q <- p", 13),
    ("two heads above a loop", "y <- x; x <- p; p <- q; q <- p", 25),
    ("three heads in a chain above a loop", "w <- x; x <- y; y <- z; z <- u; u <- z", 31),
    ("a head above a loop, twice", "x <- p; x <- q; p <- q; q <- p", 25),
    ("a head above a loop with a fact", "x <-; x <- p; p <- p", 23),
    ("a fork above a loop", "t <- l r; l <- b; r <- b; b <- b", 33),
    ("a fork with a loop on one side", "t <- l r; l <- b; r <- r b; b <-", 27),
    ("a head above two loops", "x <- p q; p <- p; q <- q", 21),
    ("a head above two loops, the second first", "x <- p q; q <- q; p <- p", 21),
    ("two heads above two loops", "x <- p; y <- q; q <- q; p <- p", 25),
    ("a head above a loop by its last literal", "abducible a b; x <- a -b a b p; p <- p", 27),
    ("heads without loops before one", "abducible a; x <- a; y <- -a x; z <- y x; p <- p", 35),
    ("facts before a loop", "x <-; y <-; z <-; p <- q; q <- p", 25),
    ("a head below a loop", "abducible a; r <- a; p <- q r; q <- p", 19),
    ("heads below and above a loop", "abducible a; r <- a; x <- p; p <- r p", 25),
    ("a head between two loops", "b <- p; p <- q; q <- p; r <- b; r <- s; s <- r", 19),
    ("a head between two loops, the upper one first", "b <- p; s <- r; r <- b s; p <- p", 19),
    ("a head between two loops, by negations", "b <- -p; p <- -p; r <- -b r", 19),
    ("two heads between two loops", "b <- c; c <- p; p <- p; r <- b; r <- r", 25),
    ("two heads between two loops, side by side", "b <- p; c <- p; r <- b c r; p <- p", 25),
    ("two heads between three loops", "b <- p; c <- q; q <- b q; r <- c r; p <- p", 25),
    ("a fact of a head between two loops", "b <-; b <- p; p <- p; r <- b r", 23),
    ("a head between two loops that makes them one", "b <- p; p <- r; r <- b", 13),
    ("a head above every atom of a loop", "x <- p q r; p <- q; q <- r; r <- p", 23),
    ("a loop numbered against its order", "defined s q p r x; x <- p; p <- q; q <- r; r <- s; s <- p", 19),
    ("a loop numbered to and fro", "defined r x p s q; x <- s; q <- r; p <- q; s <- p; r <- s", 19),
    ("two loops numbered through each other", "defined p q r s x; x <- p q; p <- r; q <- s; r <- p; s <- q", 21),
    ("a fact of a head on a loop", "p <-; x <- p; p <- x", 13),
    ("a fact of a head on a loop, behind another fact", "x <-; p <-; p <- p", 17),
    ("a fact of the second atom of a loop", "x <- q; q <-; p <- q; q <- p", 19),
    ("a fact of a head on a loop, behind the loop", "p <- p; p <-", 13),
    ("a clause off the loop first", "abducible a; x <- a; p <- a; p <- q; q <- p", 19),
    ("a clause off the loop, of the other atom", "abducible a; q <- a; p <- q; q <- p", 13),
    ("a clause off the loop through another atom", "r <- p; p <- s; s <-; p <- q; q <- p", 19),
    ("a long clause off the loop first", "abducible a b c; p <- a b c; p <- -p", 13),
    ("a clause that leads into another loop first", "p <- q; q <- q; p <- p", 13),
    ("a head above a loop that has its own, later", "x <- p; p <- p; y <- x; x <- y", 13),
    ("a head above a loop with its own as the last clause", "x <- p; y <- p; p <- r; r <- p; y <- y", 19),
    ("the first head on no loop, all others on one", "s <- a1; a1 <- a2; a2 <- a3; a3 <- a1", 19),
    ("the same loop, its clauses backwards", "s <- a1; a3 <- a1; a2 <- a3; a1 <- a2", 19),
    ("a loop of four", "p <- q; q <- r; r <- s; s <- p", 13),
    ("a loop with a shorter one inside", "x <- q; p <- q; q <- r; r <- p; q <- p", 19),
    ("two loops through one atom", "p <- q; q <- p; q <- r; r <- q", 13),
    ("two loops through one atom, a head above", "x <- r; r <- q; q <- p; p <- q; q <- r", 19),
    ("two loops apart", "q <- q; p <- p", 13),
    ("three loops apart, heads above them first", "x <- r; y <- q x; z <- p y; r <- r; q <- q; p <- p", 35),
    ("a loop of the lowest atoms, another one's clause first", "defined p q x; x <- x; p <- q; q <- p", 13),
    ("a loop met from the first head, another one's clause first", "x <- p; y <- y; p <- p", 19),
    ("a loop met from the first head, its other atom first", "x <- p; q <- p; p <- q", 19),
    ("a loop met from the lowest atom's head above it", "defined x p q; q <- p; x <- q; p <- q", 13),
    ("a loop met twice before its clauses", "x <- p; y <- p x; p <- q; q <- p", 27),
    ("a loop through one negation", "x <-; p <- -q; q <- p", 17),
    ("a loop through two negations", "x <- -p; p <- -q; q <- -p", 19),
    ("a loop through three negations", "x <-; p <- -q; q <- -r; r <- -p", 17),
    ("an atom from itself and from not itself", "x <- u; p <- p -p", 19),
    ("a loop with and without negation", "x <- -q p; p <- q -q; q <- -p p", 21),
    ("an atom from itself in its third clause", "x <-; y <- x; y <- -x; y <- x y", 17),
    ("an atom without clauses before a loop", "p <- u; q <- q", 19),
    ("a loop and an atom without clauses in it", "x <- u; p <- u q; q <- -u p", 19),
    ("a loop among atoms of constraints", "x <- p; p <- q; q <- p; p -> q; x -> p", 19),
    ("a loop and a circle of constraints", "x <- y; y -> x; x -> y; p <- p", 19),
    ("a loop behind 16 goal literals", "goal" + " p" * 16 + "; p <- p", 45),
    ("a head above a loop behind a goal of three", "goal x p q; x <- q; p <- q; q <- p", 25),
    ("a loop the goal does not name, a head above it", "abducible a; goal a; x <- p; p <- p", 21),
    ("a loop behind 64 abducibles", "abducible " + " ".join(f"a{i}" for i in range(64)) + "; x <- a0 a63; p <- p", 21),
    ("250 heads above a loop of six", "; ".join(f"p{i} <- p{i + 1}" for i in range(255)) + "; p255 <- p250", 1513),
    ("250 heads above a loop of six, the last clause first", "p255 <- p250; " + "; ".join(f"p{i} <- p{i + 1}" for i in range(255)), 13),
    ("250 heads above a loop of six, from the top down",
     "; ".join(f"p{i} <- p{i - 1}" for i in range(255, 0, -1)) + "; p0 <- p5", 1513),
    ("a loop of 256 atoms, backwards", "; ".join(f"p{i} <- p{(i - 1) % 256}" for i in range(255, -1, -1)), 13),
    ("a loop of 255 atoms below one", "s <- p9; " + "; ".join(f"p{i} <- p{(i + 1) % 255}" for i in range(255)), 19),
    ("127 loops of two, the first below a head", "x <- p0; " + "; ".join(f"p{i} <- -q{i}" for i in range(127))
     + "; " + "; ".join(f"q{i} <- p{i}" for i in range(127)), 19),
    ("the last of 512 clauses on itself", "abducible a; " + "x <- a; " * 511 + "y <- y", 3079),
    ("511 facts and an atom from itself", "defined x; " + "x <-; " * 511 + "y <- y", 2057),
    ("511 facts of an atom, and then from itself", "x <-; " * 511 + "x <- x", 13),
    ("510 clauses above the loop of the last two", "x <- p; " * 510 + "p <- q; q <- p", 3073),
    ("a clause of 1,000 literals above a loop", "x <- " + "p " * 1000 + "; p <- p", 2017),
]

# The same with atoms of chosen numbers.
NUMBERED = [
    ("atom 254 above atom 255 from itself", rest("0100 0000 0000 0002 0004 00fe 01fe 0004 00ff 01fe 0000"), 9, 19),
    ("atom 255 above atom 0 from itself", rest("0100 0000 0000 0002 0004 00ff 0000 0004 0000 0000 0000"), 9, 19),
    ("atom 0 above atom 255 from not itself", rest("0100 0000 0000 0002 0004 0000 01fe 0004 00ff 01ff 0000"), 9, 19),
    ("atoms 64 and 255 from each other", rest("0100 0040 0000 0003 0002 0041 0004 00ff 0080 0004 0040 01fe 0000"), 9, 17),
    ("atoms 63 and 64, 127 and 128 from each other",
     rest("0100 0000 0000 0005 0004 0000 007e 0004 0080 00fe 0004 007f 0100 0004 0040 007e 0004 003f 0080 0000"), 9, 19),
]

def far(longest):
    """Faults in the longest image: its first clause's record is at 45, its last one's at 2,089, its last constraint's at 4,651."""
    return [
        ("the longest image, its last clause's record too long", put(longest, 2089, "1a08"), 4, 2089),
        ("the longest image, its last clause's record over the total", put(longest, 2089, "0804"), 5, 2089),
        ("the longest image, its last head abducible", put(longest, 2091, "003f"), 7, 2091),
        ("the longest image, its last body literal of atom 256", put(longest, 4139, "0200"), 6, 4139),
        ("the longest image, a loop in its last clause", put(longest, 4139, "0080"), 9, 45),
        ("the longest image, 129 constraints", put(longest, 4141, "0081"), 5, 4141),
        ("the longest image, a byte cut off", cut(longest, 8750), 4, 4651),
        ("the longest image, its last constraint cut off", cut(longest, 4651), 4, 4651),
        ("the longest image, a condition in its last constraint", put(longest, 4653, "0001"), 8, 4657),
        ("the longest image, an alternative of two too early", put(longest, 4655, "0002"), 8, 4661),
        ("the longest image, its last alternative empty", put(longest, 8747, "0000"), 8, 8747),
        ("the longest image, its last alternative of two", put(longest, 8747, "0002"), 4, 8747),
        ("the longest image, its last literal of atom 256", put(longest, 8749, "0201"), 6, 8749),
        ("the longest image, its last condition count over the total", put(longest, 4653, "0401"), 5, 4653),
    ]


def cuts():
    """The book cut at every byte."""
    numbers = [int(word) for word in CUTS.split()]
    return [(f"every field: {length} bytes left", cut(EVERY_FIELD, length), 4, place)
            for length, place in zip(numbers[::2], numbers[1::2])]


def changed():
    """The book with one field changed."""
    return [(f"every field: {field} {digits} at {place}", put(EVERY_FIELD, place, digits), *answer)
            for field, place, digits, *answer in CHANGED]


def loops():
    return [(name, image(book), 9, place) for name, book, place in LOOPS] + NUMBERED


CASES = [("every field", EVERY_FIELD, 0)] + FRONT + cuts() + changed() + BEHIND + loops()


def tenth(turn):
    """Every tenth of the refused ones: what the second search is given."""
    return [case for case in CASES if case[2]][turn::10]


def third(turn):
    """Every third of the refused ones: what judge, lister and verdict are given, so that each is given to one of them."""
    return [case for case in CASES if case[2]][turn::3]
