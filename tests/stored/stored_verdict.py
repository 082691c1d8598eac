"""Stored cases of operation 4, the verdict (paper 01, 6; paper 02, A3).

Written from the specification alone; shares no code with the engine.
Answers are written by hand in the short form of the lister's table; where a second search runs, its nodes are counted with the first's.
"""

from tests.stored import asked, books, places
from tests.implementation.answers import line_verdict, pack_verdict
from tests.implementation.notation import image
from tests.stored.asked import FREE, NEVER
from tests.stored.stored_list import full_line, ten_pairs

WORK = 16384
TOP = 1 << 63

WORDS = {"u": "unexplained", "n": "needed", "p": "possible", "P": "possible", "r": "ruled out"}

WIDE = image(books.abducibles(64) + "goal a63 x; x <- a31; x <- a32")
WIDE_LIST = f"{TOP + (1 << 31)} {TOP + (1 << 32)}"
LATE = image("abducible a b c; goal x; x <- a b; x <- a c; x <- a")

# (name, image, hypothesis, budget, room, work length, answer)
SINGLE = [
    ("P1 with budget 14", books.P1, 0, 14, 3, WORK, "refused 30 nodes 14"),
    ("P1 with budget 15", books.P1, 0, 15, 3, WORK, "possible nodes 15: 1 2"),
    ("P1 with budget 16", books.P1, 0, 16, 3, WORK, "possible nodes 15: 1 2"),
    ("P1 with room 1 and budget 10", books.P1, 0, 10, 1, WORK, "refused 31 nodes 10"),
    ("P1 with room 1 and budget 9", books.P1, 0, 9, 1, WORK, "refused 30 nodes 9"),
    ("P1 with room 2", books.P1, 1, 100, 2, WORK, "possible nodes 15: 1 2"),
    ("P1 with room 0", books.P1, 2, 100, 0, WORK, "refused 31 nodes 5"),
    ("P1 with budget 0", books.P1, 2, 0, 3, WORK, "refused 30 nodes 0"),
    ("P1 with room 256", books.P1, 2, 100_000, 256, WORK, "ruled out nodes 29: 1 2"),
    ("P5 with room 256", books.P5, 1, 100_000, 256, WORK, "needed nodes 16: 2"),
    ("P5 with budget 15", books.P5, 1, 15, 3, WORK, "refused 30 nodes 15"),
    ("P5 with room 0", books.P5, 1, 100, 0, WORK, "refused 31 nodes 13"),
    ("P6 with room 1", books.P6, 0, 100, 1, WORK, "refused 31 nodes 8"),
    ("P8 with room 0", books.P8, 0, 100, 0, WORK, "refused 31 nodes 4"),
    ("P9 with budget 6", books.P9, 0, 6, 3, WORK, "refused 30 nodes 6"),
    ("P10 with room 0", books.P10, 0, 100, 0, WORK, "unexplained nodes 6:"),
    ("P10 with budget 5", books.P10, 0, 5, 3, WORK, "refused 30 nodes 5"),
    ("P10 with budget 6 and room 0", books.P10, 1, 6, 0, WORK, "unexplained nodes 6:"),
    ("never, with room 0", NEVER, 0, 1, 0, WORK, "unexplained nodes 1:"),
    ("never, with budget 0", NEVER, 0, 0, 0, WORK, "refused 30 nodes 0"),
    ("P7, hypothesis 0 of none", books.P7, 0, 100, 3, WORK, "refused 23 nodes 0"),
    ("P7, hypothesis 1", books.P7, 1, 100, 3, WORK, "refused 23 nodes 0"),
    ("P1, hypothesis 3 is defined", books.P1, 3, 100, 3, WORK, "refused 23 nodes 0"),
    ("P1, hypothesis 4 is defined", books.P1, 4, 100, 3, WORK, "refused 23 nodes 0"),
    ("P1, hypothesis 5 is no atom", books.P1, 5, 100, 3, WORK, "refused 23 nodes 0"),
    ("P1, hypothesis 63", books.P1, 63, 100, 3, WORK, "refused 23 nodes 0"),
    ("P1, hypothesis 64", books.P1, 64, 100, 3, WORK, "refused 23 nodes 0"),
    ("P1, hypothesis 256", books.P1, 256, 100, 3, WORK, "refused 23 nodes 0"),
    ("P1, hypothesis 65,536", books.P1, 65536, 100, 3, WORK, "refused 23 nodes 0"),
    ("P1, hypothesis of the highest bit", books.P1, 1 << 31, 100, 3, WORK, "refused 23 nodes 0"),
    ("P1, hypothesis of 32 bits set", books.P1, (1 << 32) - 1, 100, 3, WORK, "refused 23 nodes 0"),
    ("hypothesis beyond B where nothing explains", NEVER, 1, 100, 3, WORK, "refused 23 nodes 0"),
    ("hypothesis beyond B and budget 0", books.P1, 3, 0, 3, WORK, "refused 23 nodes 0"),
    ("hypothesis beyond B and room 0", books.P1, 3, 100, 0, WORK, "refused 23 nodes 0"),
    ("hypothesis beyond B where the budget would not do", books.P1, 3, 5, 3, WORK, "refused 23 nodes 0"),
    ("P10, hypothesis 2 of two", books.P10, 2, 100, 3, WORK, "refused 23 nodes 0"),
    ("hypothesis 63 of 64", WIDE, 63, 100, 2, WORK, "needed nodes 6: " + WIDE_LIST),
    ("hypothesis 31 of 64", WIDE, 31, 100, 2, WORK, "possible nodes 6: " + WIDE_LIST),
    ("hypothesis 32 of 64", WIDE, 32, 100, 2, WORK, "possible nodes 6: " + WIDE_LIST),
    ("hypothesis 0 of 64", WIDE, 0, 100, 2, WORK, "possible nodes 11: " + WIDE_LIST),
    ("hypothesis 30 of 64", WIDE, 30, 100, 2, WORK, "possible nodes 11: " + WIDE_LIST),
    ("hypothesis 62 of 64", WIDE, 62, 100, 2, WORK, "possible nodes 11: " + WIDE_LIST),
    ("hypothesis 64 of 64", WIDE, 64, 100, 2, WORK, "refused 23 nodes 0"),
    ("hypothesis 95 of 64, 31 in its low bits", WIDE, 95, 100, 2, WORK, "refused 23 nodes 0"),
    ("work length 0", books.P1, 0, 100, 3, 0, "refused 21 nodes 0"),
    ("work length 16,383", books.P1, 0, 100, 3, 16383, "refused 21 nodes 0"),
    ("work length 16,385", books.P1, 0, 100, 3, 16385, "possible nodes 15: 1 2"),
    ("work length 20,000", books.P1, 2, 100, 3, 20000, "ruled out nodes 29: 1 2"),
    ("work length 20,000, budget used up", books.P1, 2, 7, 3, 20000, "refused 30 nodes 7"),
    ("room 1,024", books.P8, 0, 100, 1024, WORK, "needed nodes 6: 1"),
    ("room 1,025", books.P8, 0, 100, 1025, WORK, "refused 20 nodes 0"),
    ("room 1,100", books.P8, 0, 100, 1100, WORK, "refused 20 nodes 0"),
    ("budget 1,000,000", books.P8, 0, 1_000_000, 1, WORK, "needed nodes 6: 1"),
    ("budget 1,000,001", books.P8, 0, 1_000_001, 1, WORK, "refused 22 nodes 0"),
    ("budget of 32 bits set", books.P8, 0, (1 << 32) - 1, 1, WORK, "refused 22 nodes 0"),
    ("list, work, budget and hypothesis wrong", books.P8, 9, 1_000_001, 1025, 1, "refused 20 nodes 0"),
    ("work, budget and hypothesis wrong", books.P8, 9, 1_000_001, 1, 1, "refused 21 nodes 0"),
    ("budget and hypothesis wrong", books.P8, 9, 1_000_001, 1, WORK, "refused 22 nodes 0"),
    ("list and hypothesis wrong", books.P8, 9, 100, 1025, WORK, "refused 20 nodes 0"),
    ("work and hypothesis wrong", books.P8, 9, 100, 1, 16383, "refused 21 nodes 0"),
    ("31 on the way though the end fits", LATE, 0, 100, 1, WORK, "refused 31 nodes 7"),
    ("just room on the way, in the set", LATE, 0, 100, 2, WORK, "needed nodes 9: 1"),
    ("just room on the way, only in dropped sets", LATE, 1, 100, 2, WORK, "possible nodes 14: 1"),
    ("10 pairs, one entry short", books.pairs(10), 0, 100_000, 1023, WORK, "refused 31 nodes 4093"),
    ("2 pairs", books.pairs(2), 3, 100, 4, WORK, "possible nodes 13: 5 6 9 10"),
    ("3 pairs, one node short", books.pairs(3), 0, 28, 8, WORK, "refused 30 nodes 28"),
    ("10 pairs", books.pairs(10), 19, 5000, 1024, WORK, None),
    ("250 layers", books.LAYERS, 0, 1000, 1, WORK, "needed nodes 503: 1"),
    ("255 negations", books.NEGATIONS, 0, 1000, 1, WORK, "ruled out nodes 768: 0"),
    ("130,000 nodes of 131,071",
     image("abducible a; goal " + " ".join(f"x{i}" for i in range(16))
           + "".join(f"; x{i} <-; x{i} <-" for i in range(16))), 0, 130_000, 1, WORK, "refused 30 nodes 130000"),
] + [
    (f"refusal {number} passed on", packed, 0, 100, 3, WORK, f"refused {number} nodes 0 at {books.PLACES[number]}")
    for number, packed in books.REFUSED
] + [
    (f"refusal {number} before 20 to 23", packed, 1 << 31, 1_000_001, 1025, 3, f"refused {number} nodes 0 at {books.PLACES[number]}")
    for number, packed in books.REFUSED
] + [
    (name, packed, *((0, 100, 3, WORK), (1 << 31, 1_000_001, 1, 3))[turn % 2], f"refused {number} nodes 0 at {place}")
    for turn, (name, packed, number, place) in enumerate(places.third(2))
]


# What the second search adds: (name, image, hypothesis, budget, room, work length, answer).
SECOND = [
    ("kelp, rock asked, room for one", books.KELP, 1, 100, 1, WORK, "possible nodes 7: 1"),
    ("kelp, rock asked, no room", books.KELP, 1, 100, 0, WORK, "refused 31 nodes 3"),  # before any second search
    ("kelp, rock asked, no room and budget 3", books.KELP, 1, 3, 0, WORK, "refused 31 nodes 3"),
    ("kelp, rock asked, no room and budget 2", books.KELP, 1, 2, 0, WORK, "refused 30 nodes 2"),
    ("kelp, rock asked, budget 0", books.KELP, 1, 0, 2, WORK, "refused 30 nodes 0"),
    ("kelp, rock asked, budget for the first search alone", books.KELP, 1, 3, 2, WORK, "refused 30 nodes 6"),
    ("kelp, rock asked, budget for each search", books.KELP, 1, 4, 2, WORK, "possible nodes 7: 1"),
    ("kelp, kelp asked, budget for the first search alone", books.KELP, 0, 3, 2, WORK, "needed nodes 3: 1"),  # no second search
    ("kelp, rock asked, work length 20,000", books.KELP, 1, 4, 2, 20000, "possible nodes 7: 1"),
    ("kelp, rock asked, work length 20,000, second search one short", books.KELP, 1, 3, 2, 20000, "refused 30 nodes 6"),
    ("kelp, rock asked, work area one short", books.KELP, 1, 100, 2, 16383, "refused 21 nodes 0"),
    ("kelp, rock asked, room 1,024", books.KELP, 1, 100, 1024, WORK, "possible nodes 7: 1"),
    ("kelp, rock asked, room 1,024, second search one short", books.KELP, 1, 3, 1024, WORK, "refused 30 nodes 6"),
    ("kelp, rock asked, room 1,025", books.KELP, 1, 3, 1025, WORK, "refused 20 nodes 0"),
    ("kelp, rock asked, the greatest budget", books.KELP, 1, 1_000_000, 2, WORK, "possible nodes 7: 1"),
    ("kelp, rock asked, above the greatest budget", books.KELP, 1, 1_000_001, 2, WORK, "refused 22 nodes 0"),
    ("kelp, hypothesis B", books.KELP, 2, 100, 2, WORK, "refused 23 nodes 0"),
    ("kelp, hypothesis B, budget for the first search alone", books.KELP, 2, 3, 2, WORK, "refused 23 nodes 0"),
    ("nothing to explain, budget 1", FREE, 1, 1, 1, WORK, "refused 30 nodes 2"),
    ("nothing to explain, budget 2", FREE, 1, 2, 1, WORK, "possible nodes 3: 0"),
    ("P1, bubbles asked, budget of the second search", books.P1, 2, 14, 3, WORK, "refused 30 nodes 14"),  # of the first, one short
    ("P1, bubbles asked, budget of the first search", books.P1, 2, 15, 3, WORK, "ruled out nodes 29: 1 2"),
    ("P1, bubbles asked, room 1", books.P1, 2, 100, 1, WORK, "refused 31 nodes 10"),
    ("never with a, both searches over at the budget", image("abducible a; a ->"), 0, 3, 1, WORK, "ruled out nodes 6: 0"),
    ("never with a, one node short of both", image("abducible a; a ->"), 0, 2, 1, WORK, "refused 30 nodes 2"),
    ("a with not a, both searches over at the budget", image("abducible a; a -a ->"), 0, 5, 2, WORK, "possible nodes 10: 0"),
    ("unexplained, budget of the first search", books.P10, 1, 6, 0, WORK, "unexplained nodes 6:"),  # the second would have 7
    ("unexplained though not mentioned", image("abducible a b; goal a -a"), 1, 2, 1, WORK, "unexplained nodes 2:"),
    ("the list stays in its order", image("abducible a b c d; goal x; x <- a b; x <- c"), 3, 6, 3, WORK, "possible nodes 11: 4 3"),
    ("the list stays in its order, ruled out",
     image("abducible a b c d; goal x -d; x <- a b; x <- c"), 3, 8, 3, WORK, "ruled out nodes 15: 4 3"),
    ("hypothesis 63 of 64, not mentioned", image(books.abducibles(64) + "goal a0"), 63, 3, 1, WORK, "possible nodes 5: 1"),
    ("hypothesis 63 of 64, not mentioned, one short", image(books.abducibles(64) + "goal a0"), 63, 2, 1, WORK, "refused 30 nodes 4"),
    ("hypothesis 63 of 64, denied", image(books.abducibles(64) + "goal a0 -a63"), 63, 3, 1, WORK, "ruled out nodes 6: 1"),
    ("hypothesis 32 of 64 beside 0", image(books.abducibles(64) + "goal a0"), 32, 3, 2, WORK, "possible nodes 5: 1"),
    ("hypothesis 0 of 64 beside 32", image(books.abducibles(64) + "goal a32"), 0, 3, 2, WORK, f"possible nodes 5: {1 << 32}"),
    ("2 pairs, one not mentioned", books.pairs(2, "c"), 4, 100, 4, WORK, "possible nodes 19: 5 6 9 10"),
    ("2 pairs, one not mentioned, one entry short", books.pairs(2, "c"), 4, 100, 3, WORK, "refused 31 nodes 13"),
    ("10 pairs, one not mentioned",
     books.pairs(10, "c"), 20, 4093, 1024, WORK, "possible nodes 4115: " + " ".join(map(str, ten_pairs()))),
    ("10 pairs, one not mentioned, one entry short", books.pairs(10, "c"), 20, 4093, 1023, WORK, "refused 31 nodes 4093"),
    ("10 pairs, one not mentioned, one node short", books.pairs(10, "c"), 20, 4092, 1024, WORK, "refused 30 nodes 4092"),
    ("255 negations, over at the budget", books.NEGATIONS, 0, 384, 1, WORK, "ruled out nodes 768: 0"),
    ("255 negations, one node short", books.NEGATIONS, 0, 383, 1, WORK, "refused 30 nodes 383"),
    ("the deepest path, denied at its first break", books.DEEPEST, 1, 2704, 1, WORK, "ruled out nodes 3236: 1"),
    ("the deepest path, needed", books.DEEPEST, 0, 2704, 1, WORK, "needed nodes 2704: 1"),
    ("256 marks, the first goal literal denies", books.FULLEST, 0, 2193, 1, WORK, "ruled out nodes 2195: 0"),
    ("256 marks, the sixth constraint denies", books.FULLEST, 63, 2193, 1, WORK, "ruled out nodes 2264: 0"),
    ("512 breaks, the first has no way", books.MOST_OPEN, 0, 1923, 1, WORK, "ruled out nodes 1929: 2"),
    ("a body of 1,024", image("abducible a b; goal x; x <- " + "a " * 1024), 1, 1027, 1, WORK, "possible nodes 2053: 1"),
    ("a body of 1,024, one node short", image("abducible a b; goal x; x <- " + "a " * 1024), 1, 1026, 1, WORK, "refused 30 nodes 2052"),
    ("1,000,000 nodes twice, possible", books.in_vain([12, 83, 17, 58], "", "never"), 0, 1_000_000, 1, WORK, "possible nodes 2000000: 0"),
    ("1,000,000 nodes twice, one more due", books.in_vain([1, 12, 83, 17, 58], ""), 0, 1_000_000, 1, WORK, "refused 30 nodes 2000000"),
]


def hypotheses():
    """Every hypothesis with budget enough; and where a second search runs, budgets about the first's node number."""
    for each in asked.each():
        runs = each.verdict in "Pr"
        answer = f"{WORDS[each.verdict]} nodes {each.first + each.second * runs}: {each.sets}"
        yield each.name, each.image, each.hypothesis, 10_000, each.room, WORK, answer
        if runs:
            short = f"refused 30 nodes {2 * each.first}" if each.first < each.second else answer
            yield f"{each.name}, budget {each.first}", each.image, each.hypothesis, each.first, each.room, WORK, short
        if runs and each.first < each.second:
            yield f"{each.name}, budget {each.second}", each.image, each.hypothesis, each.second, each.room, WORK, answer


def table():
    yield from hypotheses()
    yield from SINGLE
    yield from SECOND


def stored():
    """(name, packed case, line); an answer written by hand is met by the verdict."""
    for name, packed, hypothesis, budget, room, work, short in table():
        answer = line_verdict(packed, hypothesis, budget, room, work)
        if short is not None:
            assert answer == full_line(short, room), (name, answer, full_line(short, room))
        yield name, pack_verdict(packed, hypothesis, budget, room, work), answer
