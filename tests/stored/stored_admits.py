"""Stored cases of operation 13, the second search (paper 02, A3).

Written from the specification alone; shares no code with the engine.
Every answer is written by hand: a admitted or e excluded with its node number, or a refusal: `30 nodes 4`, a book's own `9 at 13`.
"""

from tests.implementation.answers import line_admits, pack_admits
from tests.implementation.notation import image
from tests.stored import asked, books, places

WORK = 16384
WIDE = image(books.abducibles(64) + "goal a63 x; x <- a31; x <- a32")

# Every budget up to the node number and one more: (name, image, hypothesis, answer).
EVERY_BUDGET = [
    ("kelp explains, rock asked", books.KELP, 1, "a4"),
    ("either explains, never kelp with rock, rock asked",
     image("abducible kelp rock; goal group; group <- kelp; group <- rock; kelp rock ->"), 1, "a10"),
    ("rock brings sand, and no sand was seen, rock asked",
     image("abducible kelp rock sand; goal group; group <- kelp; rock -> sand; sand ->"), 1, "e8"),
    ("P1, bubbles asked", books.P1, 2, "e14"),
    ("nothing to explain, a asked", asked.FREE, 0, "a2"),
    ("never, a asked", asked.NEVER, 0, "e2"),
]

# (name, image, hypothesis, budget, work length, answer)
SEARCHED = [
    ("the highest of 64 needed", WIDE, 63, 5, WORK, "a5"),
    ("abducible 31 of 64, in the first clause", WIDE, 31, 100, WORK, "a5"),
    ("abducible 32 of 64, in the second clause, the first is enough", WIDE, 32, 100, WORK, "a5"),
    ("abducible 0 of 64, not mentioned", WIDE, 0, 5, WORK, "a5"),
    ("abducible 62 of 64, not mentioned", WIDE, 62, 4, WORK, "30 nodes 4"),
    ("abducible 63 of 64 denied", image(books.abducibles(64) + "goal a0 -a63"), 63, 3, WORK, "e3"),
    ("abducible 31 of 64 beside a denied 63", image(books.abducibles(64) + "goal a0 -a63"), 31, 4, WORK, "a4"),
    ("abducible 32 of 64 beside a denied 0", image(books.abducibles(64) + "goal -a0 a63"), 32, 4, WORK, "a4"),
    ("10 pairs, the last member", books.pairs(10), 19, 22, WORK, "a22"),  # no list, so 1,024 smallest sets need no room
    ("11 pairs, the first member", books.pairs(11), 0, 24, WORK, "a24"),
    ("11 pairs, one not mentioned", books.pairs(11, "c"), 22, 24, WORK, "a24"),
    ("11 pairs, one not mentioned, one node short", books.pairs(11, "c"), 22, 23, WORK, "30 nodes 23"),
    ("250 layers", books.LAYERS, 0, 504, WORK, "a504"),
    ("250 layers, one node short", books.LAYERS, 0, 503, WORK, "30 nodes 503"),
    ("255 negations, the last of them denies", books.NEGATIONS, 0, 384, WORK, "e384"),
    ("255 negations, one node short", books.NEGATIONS, 0, 383, WORK, "30 nodes 383"),
    ("the deepest path and one node more", books.DEEPEST, 0, 2705, WORK, "a2705"),
    ("the deepest path, no node more", books.DEEPEST, 0, 2704, WORK, "30 nodes 2704"),
    ("the deepest path, denied at its first break", books.DEEPEST, 1, 10_000, WORK, "e532"),
    ("256 marks, the first goal literal denies", books.FULLEST, 0, 2, WORK, "e2"),
    ("256 marks, the last goal literal denies", books.FULLEST, 15, 17, WORK, "e17"),
    ("256 marks, the first constraint denies", books.FULLEST, 16, 19, WORK, "e19"),
    ("256 marks, the sixth constraint denies", books.FULLEST, 63, 71, WORK, "e71"),
    ("512 breaks, the first has no way", books.MOST_OPEN, 0, 100, WORK, "e6"),
    ("512 breaks and 128 constraints left open", books.MOST_OPEN, 1, 1284, WORK, "a1284"),
    ("512 breaks and 128 constraints left open, one node short", books.MOST_OPEN, 1, 1283, WORK, "30 nodes 1283"),
    ("a body of 1,024", image("abducible a b; goal x; x <- " + "a " * 1024), 1, 1027, WORK, "a1027"),
    ("a body of 1,024, its last literal denies", image("abducible a b; goal x; x <- " + "a " * 1023 + "-b"), 1, 1026, WORK, "e1026"),
    ("the last of 512 clauses", image("abducible a b; goal x" + "; x <- -a" * 511 + "; x <- b"), 0, 515, WORK, "a515"),
    ("512 clauses, each denies", image("abducible a b; goal x" + "; x <- -a" * 512), 0, 514, WORK, "e514"),
    ("the last of 1,024 alternatives", image("abducible a b; -> " + "-a | " * 1023 + "b"), 0, 1027, WORK, "a1027"),
    ("1,024 conditions", image("abducible a; " + "a " * 1024 + "->"), 0, 1026, WORK, "e1026"),
    ("16 goal literals, the last denies", image("abducible a b; goal" + " b" * 15 + " -a"), 0, 17, WORK, "e17"),
    ("128 constraints, the last denies", image("abducible a b" + "; -> b" * 127 + "; a ->"), 0, 257, WORK, "e257"),
    ("the last node of the greatest budget succeeds", books.in_vain([12, 83, 17, 58], "", "never"), 0, 1_000_000, WORK, "a1000000"),
    ("the last node of the greatest budget fails", books.in_vain([12, 83, 17, 58], "-a"), 0, 1_000_000, WORK, "e1000000"),
    ("1,000,000 nodes, one short", books.in_vain([12, 83, 17, 58], "-a"), 0, 999_999, WORK, "30 nodes 999999"),
    ("budget 1,000,000", books.KELP, 1, 1_000_000, WORK, "a4"),
    ("work length 16,385", books.KELP, 1, 100, 16385, "a4"),
    ("work length 20,000", books.P1, 2, 100, 20000, "e14"),
    ("work length 20,000, budget used up", books.P1, 2, 7, 20000, "30 nodes 7"),
    ("work length 20,000, budget 0", books.P1, 2, 0, 20000, "30 nodes 0"),
]

# Refused before any search: the book's own, then 21, 22, 23. There is no list, so never 20 or 31.
REFUSED = [
    ("hypothesis 0 of none", books.P7, 0, 100, WORK, "23"),
    ("hypothesis 1 of none", books.P7, 1, 100, WORK, "23"),
    ("hypothesis B is the first defined atom", books.P1, 3, 100, WORK, "23"),
    ("hypothesis is a defined atom", books.P1, 4, 100, WORK, "23"),
    ("hypothesis is no atom", books.P1, 5, 100, WORK, "23"),
    ("hypothesis B where no atom is defined", image("abducible a b; goal a"), 2, 100, WORK, "23"),
    ("hypothesis B - 1 where no atom is defined", image("abducible a b; goal a"), 1, 100, WORK, "a3"),
    ("hypothesis 63 of three", books.P1, 63, 100, WORK, "23"),
    ("hypothesis 64 of 64", WIDE, 64, 100, WORK, "23"),
    ("hypothesis 95 of 64, 31 in its low bits", WIDE, 95, 100, WORK, "23"),
    ("hypothesis 256, 0 in its low byte", books.P1, 256, 100, WORK, "23"),
    ("hypothesis 65,537, 1 in its low bytes", books.P1, 65537, 100, WORK, "23"),
    ("hypothesis of the highest bit", books.P1, 1 << 31, 100, WORK, "23"),
    ("hypothesis of 32 bits set", books.P1, (1 << 32) - 1, 100, WORK, "23"),
    ("hypothesis B where nothing explains", asked.NEVER, 1, 100, WORK, "23"),
    ("hypothesis B and budget 0", books.KELP, 2, 0, WORK, "23"),
    ("hypothesis B and the greatest budget", books.KELP, 2, 1_000_000, WORK, "23"),
    ("work length 0", books.KELP, 1, 100, 0, "21"),
    ("work length 1", books.KELP, 1, 100, 1, "21"),
    ("work area one short", books.KELP, 1, 100, 16383, "21"),
    ("work area one short and budget 0", books.KELP, 1, 0, 16383, "21"),
    ("budget 1,000,001", books.KELP, 1, 1_000_001, WORK, "22"),
    ("budget of the highest bit", books.KELP, 1, 1 << 31, WORK, "22"),
    ("budget of 32 bits set", books.KELP, 1, (1 << 32) - 1, 20000, "22"),
    ("work, budget and hypothesis wrong", books.KELP, 2, 1_000_001, 16383, "21"),
    ("work and budget wrong", books.KELP, 1, 1_000_001, 16383, "21"),
    ("work and hypothesis wrong", books.KELP, 2, 100, 16383, "21"),
    ("budget and hypothesis wrong", books.KELP, 2, 1_000_001, WORK, "22"),
] + [
    (f"refusal {number} passed on", packed, 0, 100, WORK, f"{number} at {books.PLACES[number]}") for number, packed in books.REFUSED
] + [
    (f"refusal {number} before 21, 22 and 23", packed, 1 << 31, 1_000_001, 3, f"{number} at {books.PLACES[number]}")
    for number, packed in books.REFUSED
] + [
    (name, packed, *((0, 100, WORK), (1 << 31, 1_000_001, 3))[turn % 2], f"{number} at {place}")
    for turn, (name, packed, number, place) in enumerate(places.tenth(7))
]


def table():
    for each in asked.each():
        answer = f"{'a' if each.admitted else 'e'}{each.second}"
        yield each.name, each.image, each.hypothesis, each.second, WORK, answer
        yield f"{each.name}, one node short", each.image, each.hypothesis, each.second - 1, WORK, f"30 nodes {each.second - 1}"
    for name, packed, hypothesis, answer in EVERY_BUDGET:
        nodes = int(answer[1:])
        for budget in range(nodes + 2):
            yield f"{name}, budget {budget}", packed, hypothesis, budget, WORK, answer if budget >= nodes else f"30 nodes {budget}"
    yield from SEARCHED
    yield from REFUSED


def in_words(short):
    """The line of an answer in short form."""
    if short[0] in "ae":
        return f"{'admitted' if short[0] == 'a' else 'excluded'} nodes {short[1:]} work clean"
    number, *behind = short.split()
    if number == "30":
        return f"refused {short} work clean"
    return " ".join(["refused", number, "nodes 0", *behind, "work untouched"])


def stored():
    """(name, packed case, line), each answer written by hand and met by the search."""
    for name, packed, hypothesis, budget, work, short in table():
        answer = in_words(short)
        given = line_admits(packed, hypothesis, budget, work)
        assert given == answer, (name, given, answer)
        yield name, pack_admits(packed, hypothesis, budget, work), answer
