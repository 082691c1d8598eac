"""Stored cases of operation 7, the cleaner (paper 02, A4).

Written from the specification alone; shares no code with the engine. Every answer is written by hand, with its reason.
The short form is `deleted | 1 2`, `held 0:needed 2:ruled-out | 1 2` or `refused 30`; the entries and the work area behind it follow.
Node numbers in reasons: `first` of the listing, `second` of the second searches of hypotheses 0, 1 and on.
"""

from dataclasses import replace
from typing import NamedTuple

from tests.implementation.answers import line_clean, pack_clean
from tests.implementation.cleaner import packed_record
from tests.implementation.notation import image, raw, rest
from tests.implementation.reader import encode, read
from tests.implementation.search import LIST_BEFORE
from tests.stored import asked, books, places
from tests.stored.stored_read import longest

WORK = 16384
ALL = (1 << 64) - 1


class Case(NamedTuple):
    """A case: the record may be given as the atoms observed in group 7."""

    name: str
    image: bytes
    record: bytes | tuple
    hypotheses: int
    answer: str
    why: str
    budget: int = 100
    room: int = 3
    work: int = WORK

    def given(self):
        record = self.record if isinstance(self.record, bytes) else packed_record(7, self.record)
        return self.image, record, self.hypotheses, self.budget, self.room, self.work


# Books. Atoms by number stand behind each.
SEEN = image("abducible fish rock; defined spike soft; spike -> fish | rock; soft rock ->")  # spike 2, soft 3
ALARM = image("abducible a b; defined seen; seen ->")  # seen 2
UNLESS = image("abducible a b; goal x; x <- a -seen; x <- b")  # x 2, seen 3
EITHER = image("abducible a b; goal x; x <- a; x <- b")  # x 2
NOT_SO = image("abducible a b; goal -x; x <- a")  # x 2
THREE = image("abducible a b c; goal a; c ->")
FOUR = image("abducible a b c d; defined seen; goal d; a ->; b ->; c ->")  # seen 4
LAST_ATOM = rest("0100 0001 0001 01fe 0000 0000")  # A 256, B 1, goal of atom 255
NO_ABDUCIBLE = image("goal x; x <-")  # x 0
WIDE = image(books.abducibles(64) + "goal a0")
WIDE_DENIED = image(books.abducibles(64) + "".join(f"a{i} ->; " for i in range(64)))
WIDE_BUT_ONE = image(books.abducibles(64) + "".join(f"a{i} ->; " for i in range(63)))
WIDE_NEVER = image(books.abducibles(64) + "->")


def clauses(count):
    """A goal x with so many clauses that deny a. Atoms a 0, b 1, x 2."""
    return image("abducible a b; goal x" + "; x <- -a" * count)


def each_of(word, numbers=range(64)):
    """The same verdict on each of these hypotheses."""
    return " ".join(f"{number}:{word}" for number in numbers)


def shorter_longest():
    """The longest image without 32 of its facts, so that a full record brings it back to 8,751 bytes."""
    book = read(longest())
    return encode(replace(book, clauses=book.clauses[32:]))


# What is observed decides.
OBSERVED = [
    Case("P1, nothing observed, fish", books.P1, (), 0b001, "held 0:possible | 1 2", "first 15, in one of two sets", 15),
    Case("P1, nothing observed, rock", books.P1, (), 0b010, "held 1:possible | 1 2", "in one of two sets", 15),
    Case("P1, nothing observed, bubbles", books.P1, (), 0b100, "deleted | 1 2", "first 15, second 14: bubbles need a wake", 15),
    Case("P1, nothing observed, bubbles, one short", books.P1, (), 0b100, "refused 30", "first 15", 14),
    Case("P1, nothing observed, fish and bubbles", books.P1, (), 0b101, "held 0:possible 2:ruled-out | 1 2", "fish holds it", 15),
    Case("P1, nothing observed, all three", books.P1, (), 0b111, "held 0:possible 1:possible 2:ruled-out | 1 2", "two hold it", 15),
    Case("P1, wake observed, bubbles", books.P1, (4,), 0b100, "held 2:possible | 1 2 4", "first 18: with a wake bubbles explain", 18),
    Case("P1, wake observed, all three", books.P1, (4,), 0b111, "held 0:possible 1:possible 2:possible | 1 2 4", "three sets", 18),
    Case("P1, wake observed, one node short", books.P1, (4,), 0b100, "refused 30", "first 18", 17),
    Case("P1, spike observed, all three", books.P1, (3,), 0b111, "held 0:possible 1:possible 2:ruled-out | 0",
         "first 19, second 6, 6, 17: nothing need be assumed", 19),
    Case("P1, spike observed, bubbles", books.P1, (3,), 0b100, "deleted | 0", "first 19, second 17: still no wake", 19),
    Case("P1, spike observed, bubbles, one node short", books.P1, (3,), 0b100, "refused 30", "first 19", 18),
    Case("P1, spike and wake observed, all three", books.P1, (3, 4), 0b111, "held 0:possible 1:possible 2:possible | 0",
         "first 23, second 6, 6, 7", 23),
    Case("P1, wake and spike observed, all three", books.P1, (4, 3), 0b111, "held 0:possible 1:possible 2:possible | 0",
         "the order of facts of two atoms is nothing to the search", 23),
    Case("P1, spike and wake observed, one node short", books.P1, (3, 4), 0b100, "refused 30", "first 23", 22),
    Case("seen, nothing observed, both", SEEN, (), 0b11, "held 0:possible 1:possible | 0", "first 18, second 6, 6", 18),
    Case("seen, nothing observed, one node short", SEEN, (), 0b11, "refused 30", "first 18", 17),
    Case("seen, spike, both", SEEN, (2,), 0b11, "held 0:possible 1:possible | 1 2", "first 14, either explains", 14),
    Case("seen, spike, one node short", SEEN, (2,), 0b11, "refused 30", "first 14", 13),
    Case("seen, soft, fish", SEEN, (3,), 0b01, "held 0:possible | 0", "first 18, second 8", 18),
    Case("seen, soft, rock", SEEN, (3,), 0b10, "deleted | 0", "first 18, second 17: never soft with rock", 18),
    Case("seen, soft, both", SEEN, (3,), 0b11, "held 0:possible 1:ruled-out | 0", "fish holds it", 18),
    Case("seen, spike and soft, fish", SEEN, (2, 3), 0b01, "held 0:needed | 1", "first 14, only fish is left", 14),
    Case("seen, spike and soft, rock", SEEN, (2, 3), 0b10, "deleted | 1", "first 14, second 14", 14),
    Case("seen, spike and soft, both", SEEN, (2, 3), 0b11, "held 0:needed 1:ruled-out | 1", "fish holds it", 14),
    Case("seen, soft and spike, both", SEEN, (3, 2), 0b11, "held 0:needed 1:ruled-out | 1", "the other way round", 14),
    Case("seen, spike and soft, one node short", SEEN, (2, 3), 0b10, "refused 30", "first 14", 13),
    Case("unless, nothing observed", UNLESS, (), 0b11, "held 0:possible 1:possible | 1 2", "first 6", 6),
    Case("unless, seen", UNLESS, (3,), 0b11, "held 0:possible 1:needed | 2", "first 6, second 7: b alone, or a with b", 7),
    Case("unless, seen, budget of the list", UNLESS, (3,), 0b11, "refused 30", "first 6, second 7 for a", 6),
    Case("unless, seen, budget of the list, b", UNLESS, (3,), 0b10, "held 1:needed | 2", "the list settles b", 6),
    Case("not so, nothing observed, a", NOT_SO, (), 0b01, "deleted | 0", "first 4, second 4", 4),
    Case("not so, nothing observed, b", NOT_SO, (), 0b10, "held 1:possible | 0", "second 5", 5),
    Case("not so, x observed", NOT_SO, (2,), 0b01, "held 0:unexplained |", "first 4: the fact cannot be broken", 4),
    Case("not so, x observed, one node short", NOT_SO, (2,), 0b01, "refused 30", "first 4", 3),
    Case("the last of 256 atoms observed", LAST_ATOM, (255,), 0b1, "held 0:possible | 0", "first 2, second 3", 3),
    Case("the last of 256 atoms observed, one node short", LAST_ATOM, (255,), 0b1, "refused 30", "second 3", 2),
    Case("another of 256 atoms observed", LAST_ATOM, (254,), 0b1, "held 0:unexplained |", "first 1: 255 has no clause", 1),
    Case("the first defined of 256 observed", LAST_ATOM, (1,), 0b1, "held 0:unexplained |", "1 is not abducible where B is 1", 1),
]

# Unexplained holds; so does possible, and so does needed.
UNEXPLAINED = [
    Case("alarm, not seen, both", ALARM, (), 0b11, "held 0:possible 1:possible | 0", "first 3, second 4", 4),
    Case("alarm, not seen, budget of the list", ALARM, (), 0b11, "refused 30", "first 3, second 4", 3),
    Case("alarm, seen, a", ALARM, (2,), 0b01, "held 0:unexplained |", "first 3: the fact cannot be broken", 3),
    Case("alarm, seen, b", ALARM, (2,), 0b10, "held 1:unexplained |", "no set explains, so none is ruled out", 3),
    Case("alarm, seen, both", ALARM, (2,), 0b11, "held 0:unexplained 1:unexplained |", "one search", 3),
    Case("alarm, seen, both, room 0", ALARM, (2,), 0b11, "held 0:unexplained 1:unexplained |", "an empty list needs no room", 3, 0),
    Case("alarm, seen, one node short", ALARM, (2,), 0b11, "refused 30", "first 3", 2),
    Case("never, no defined atom", asked.NEVER, (), 0b1, "held 0:unexplained |", "first 1", 1),
    Case("never, budget 0", asked.NEVER, (), 0b1, "refused 30", "the root is due", 0),
    Case("P10, p observed", books.P10, (2,), 0b11, "held 0:unexplained 1:unexplained |", "p cannot be broken"),
    Case("P10, nothing observed", books.P10, (), 0b11, "held 0:unexplained 1:unexplained |", "first 6", 6),
    Case("never, of 64", WIDE_NEVER, (), ALL, f"held {each_of('unexplained')} |", "first 1, 64 verdicts", 1),
    Case("never, the highest of 64", WIDE_NEVER, (), 1 << 63, "held 63:unexplained |", "first 1", 1, 0),
]

# An atom observed twice is two facts, behind the book's clauses.
TWICE = [
    Case("kelp, the group observed", books.KELP, (2,), 0b11, "held 0:possible 1:possible | 0", "first 4, second 4, 4", 4),
    Case("kelp, the group observed, one short", books.KELP, (2,), 0b11, "refused 30", "first 4", 3),
    Case("kelp, observed twice", books.KELP, (2, 2), 0b11, "held 0:possible 1:possible | 0", "first 5", 5),
    Case("kelp, observed twice, the nodes of once", books.KELP, (2, 2), 0b11, "refused 30", "two facts: first 5", 4),
    Case("kelp, observed three times", books.KELP, (2, 2, 2), 0b11, "held 0:possible 1:possible | 0", "first 6", 6),
    Case("kelp, observed three times, the nodes of twice", books.KELP, (2, 2, 2), 0b11, "refused 30", "first 6", 5),
    Case("kelp, observed 32 times", books.KELP, (2,) * 32, 0b11, "held 0:possible 1:possible | 0", "first 4 + 31", 35),
    Case("kelp, observed 32 times, one short", books.KELP, (2,) * 32, 0b11, "refused 30", "first 35", 34),
    Case("kelp, observed, room 1", books.KELP, (2,), 0b11, "held 0:possible 1:possible | 0", "the empty set drops kelp", 4, 1),
    Case("kelp, observed, room 0, third node", books.KELP, (2,), 0b11, "refused 31", "{kelp} is met first, at node 3", 3, 0),
    Case("kelp, observed, room 0, two nodes", books.KELP, (2,), 0b11, "refused 30", "the success is node 3", 2, 0),
    Case("either, observed, room 1", EITHER, (2,), 0b01, "refused 31", "the fact is behind both clauses: {a}, {b}, then the empty set",
         100, 1),
    Case("either, observed, room 1, four nodes", EITHER, (2,), 0b01, "refused 30", "{b} would be node 5", 4, 1),
    Case("either, observed, room 2", EITHER, (2,), 0b01, "held 0:possible | 0", "first 6, second 4: the empty set drops both", 6, 2),
    Case("either, observed, one node short", EITHER, (2,), 0b01, "refused 30", "first 6", 5, 2),
    Case("either, observed twice", EITHER, (2, 2), 0b11, "held 0:possible 1:possible | 0", "first 7", 7, 2),
    Case("either, observed twice, one short", EITHER, (2, 2), 0b11, "refused 30", "first 7", 6, 2),
    Case("seen, spike twice and soft", SEEN, (2, 3, 2), 0b11, "held 0:needed 1:ruled-out | 1", "breaking stops at the first fact: first 14", 14),
    Case("P1, wake observed 32 times", books.P1, (4,) * 32, 0b111, "held 0:possible 1:possible 2:possible | 1 2 4", "first 111: 1 + 37 + 37 + 36",
         111),
    Case("P1, wake observed 32 times, one short", books.P1, (4,) * 32, 0b111, "refused 30", "first 111", 110),
    Case("a fact of the book observed again", image("abducible a; goal f; f <-"), (1,), 0b1, "held 0:possible | 0", "first 3, second 3", 3),
    Case("a fact of the book observed again, one short", image("abducible a; goal f; f <-"), (1,), 0b1, "refused 30", "first 3", 2),
]

# Which hypotheses are named.
NAMED = [
    Case("three, a", THREE, (), 0b001, "held 0:needed | 1", "first 4", 4),
    Case("three, b", THREE, (), 0b010, "held 1:possible | 1", "first 4, second 5", 5),
    Case("three, b, budget of the list", THREE, (), 0b010, "refused 30", "second 5", 4),
    Case("three, c", THREE, (), 0b100, "deleted | 1", "first 4, second 4", 4),
    Case("three, a and b", THREE, (), 0b011, "held 0:needed 1:possible | 1", "ascending", 5),
    Case("three, a and c", THREE, (), 0b101, "held 0:needed 2:ruled-out | 1", "a holds it", 4),
    Case("three, b and c", THREE, (), 0b110, "held 1:possible 2:ruled-out | 1", "b holds it", 5),
    Case("three, all", THREE, (), 0b111, "held 0:needed 1:possible 2:ruled-out | 1", "three verdicts", 5),
    Case("three, a and b, budget of the list", THREE, (), 0b011, "refused 30", "a held it, b's refusal takes its place", 4),
    Case("three, b and c, budget of the list", THREE, (), 0b110, "refused 30", "b's refusal ends the group", 4),
    Case("three, all, budget of the list", THREE, (), 0b111, "refused 30", "b's refusal, between two verdicts", 4),
    Case("four, the three denied", FOUR, (), 0b0111, "deleted | 8", "first 8, second 4, 6, 8", 8),
    Case("four, two of the denied", FOUR, (), 0b0101, "deleted | 8", "first 8, second 4, 8", 8),
    Case("four, the last denied", FOUR, (), 0b0100, "deleted | 8", "second 8", 8),
    Case("four, all", FOUR, (), 0b1111, "held 0:ruled-out 1:ruled-out 2:ruled-out 3:needed | 8", "the last holds it", 8),
    Case("four, the needed one", FOUR, (), 0b1000, "held 3:needed | 8", "first 8", 8),
    Case("four, all, one node short", FOUR, (), 0b1111, "refused 30", "first 8", 7),
    Case("four, seen, the three denied", FOUR, (4,), 0b0111, "deleted | 8", "nothing asks for what was seen", 8),
    Case("four, seen 32 times", FOUR, (4,) * 32, 0b0111, "deleted | 8", "nothing asks for what was seen", 8),
    Case("64, all", WIDE, (), ALL, f"held 0:needed {each_of('possible', range(1, 64))} | 1", "first 2, second 3", 3),
    Case("64, all, budget of the list", WIDE, (), ALL, "refused 30", "second 3 for 1", 2),
    Case("64, the needed one, budget of the list", WIDE, (), 1, "held 0:needed | 1", "first 2", 2),
    Case("64, the lowest and the highest", WIDE, (), 1 << 63 | 1, "held 0:needed 63:possible | 1", "second 3", 3),
    Case("64, the highest", WIDE, (), 1 << 63, "held 63:possible | 1", "second 3", 3, 1),
    Case("64, about 32 bits", WIDE, (), 0b11 << 31, "held 31:possible 32:possible | 1", "second 3", 3, 1),
    Case("64 denied, all", WIDE_DENIED, (), ALL, "deleted | 0", "first 129, second 3, 5 to 129: each with the whole budget", 129),
    Case("64 denied, all, one node short", WIDE_DENIED, (), ALL, "refused 30", "first 129", 128),
    Case("64 denied, the highest", WIDE_DENIED, (), 1 << 63, "deleted | 0", "second 129", 129),
    Case("64 but one denied, all", WIDE_BUT_ONE, (), ALL, f"held {each_of('ruled-out', range(63))} 63:possible | 0", "first 127, second 128", 128),
    Case("64 but one denied, all, budget of the list", WIDE_BUT_ONE, (), ALL, "refused 30", "the last second search, 128", 127),
    Case("64 but one denied, the denied, budget of the list", WIDE_BUT_ONE, (), ALL >> 1, "deleted | 0", "first 127, second up to 127", 127),
    Case("64 but one denied, the free one", WIDE_BUT_ONE, (), 1 << 63, "held 63:possible | 0", "second 128", 128),
]

# Budget and room; what is left in list and work area.
MEANS = [
    Case("kelp, budget 0", books.KELP, (), 0b11, "refused 30", "the root is due", 0),
    Case("kelp, budget 2", books.KELP, (), 0b11, "refused 30", "first 3", 2),
    Case("kelp, both, budget 3", books.KELP, (), 0b11, "refused 30", "kelp is needed, rock's second search needs 4; the list is 0", 3),
    Case("kelp, kelp, budget 3", books.KELP, (), 0b01, "held 0:needed | 1", "the list settles it", 3),
    Case("kelp, rock, budget 3", books.KELP, (), 0b10, "refused 30", "second 4", 3),
    Case("kelp, rock, budget 4", books.KELP, (), 0b10, "held 1:possible | 1", "second 4", 4),
    Case("kelp, both, budget 4", books.KELP, (), 0b11, "held 0:needed 1:possible | 1", "4 nodes for each search", 4),
    Case("kelp, the greatest budget", books.KELP, (), 0b11, "held 0:needed 1:possible | 1", "1,000,000 is admitted", 1_000_000),
    Case("kelp, above the greatest budget", books.KELP, (), 0b11, "refused 22", "1,000,001", 1_000_001),
    Case("kelp, a budget of 32 bits set", books.KELP, (), 0b11, "refused 22", "far above", (1 << 32) - 1),
    Case("kelp, room 0", books.KELP, (), 0b11, "refused 31", "one set", 100, 0),
    Case("kelp, room 1", books.KELP, (), 0b11, "held 0:needed 1:possible | 1", "one set", 100, 1),
    Case("kelp, room 1,024", books.KELP, (), 0b11, "held 0:needed 1:possible | 1", "1,024 is admitted", 100, 1024),
    Case("kelp, room 1,025", books.KELP, (), 0b11, "refused 20", "one more", 100, 1025),
    Case("kelp, room 1,100", books.KELP, (), 0b11, "refused 20", "far more", 100, 1100),
    Case("kelp, room 1,024, rock one node short", books.KELP, (), 0b10, "refused 30", "the whole list is 0", 3, 1024),
    Case("P1, wake observed, room 2", books.P1, (4,), 0b111, "refused 31", "the third set, at node 18", 18, 2),
    Case("P1, wake observed, room 2, one node short", books.P1, (4,), 0b111, "refused 30", "the third set would be node 18", 17, 2),
    Case("P1, wake observed, room 1", books.P1, (4,), 0b111, "refused 31", "rock, the second set", 100, 1),
    Case("P1, wake observed, room 0", books.P1, (4,), 0b001, "refused 31", "fish, the first set", 100, 0),
    Case("P1, wake observed, room 4", books.P1, (4,), 0b100, "held 2:possible | 1 2 4", "0 behind the sets", 18, 4),
    Case("P1, spike observed, room 2", books.P1, (3,), 0b100, "deleted | 0", "two sets on the way, one at the end", 19, 2),
    Case("P1, spike observed, room 1", books.P1, (3,), 0b100, "refused 31", "two sets on the way", 19, 1),
    Case("seen, spike and soft, room 0", SEEN, (2, 3), 0b10, "refused 31", "a group to delete needs room too", 100, 0),
    Case("seen, spike and soft, room 1", SEEN, (2, 3), 0b10, "deleted | 1", "one set", 100, 1),
    Case("seen, spike and soft, room 8", SEEN, (2, 3), 0b10, "deleted | 1", "0 behind it", 100, 8),
    Case("work length 0", SEEN, (2,), 0b11, "refused 21", "too short", 100, 3, 0),
    Case("work length 16,383", SEEN, (2,), 0b11, "refused 21", "one short", 100, 3, 16383),
    Case("work length 16,385", SEEN, (2,), 0b11, "held 0:possible 1:possible | 1 2", "the last number stays", 100, 3, 16385),
    Case("work length 20,000", SEEN, (2, 3), 0b10, "deleted | 1", "numbers behind 16,384 stay", 100, 3, 20000),
    Case("work length 20,000, budget used up", SEEN, (2, 3), 0b10, "refused 30", "numbers behind 16,384 stay", 5, 3, 20000),
    Case("work length 20,000, no room", SEEN, (2,), 0b10, "refused 31", "numbers behind 16,384 stay", 100, 1, 20000),
    Case("2 pairs and a free one, all but it", books.pairs(2, "c"), (), 0b01111,
         "held 0:possible 1:possible 2:possible 3:possible | 5 6 9 10", "first 13", 13, 4),
    Case("2 pairs and a free one, all", books.pairs(2, "c"), (), 0b11111,
         "held 0:possible 1:possible 2:possible 3:possible 4:possible | 5 6 9 10", "first 13, second 6", 13, 5),
    Case("10 pairs, one entry short", books.pairs(10), (), 0b1, "refused 31", "1,024 sets", 5000, 1023),
]

# Clauses and facts together: 512 are admitted.
LIMITS = [
    Case("512 clauses, nothing observed", clauses(512), (), 0b01, "deleted | 0", "first 1,025, second 514", 1025),
    Case("512 clauses, nothing observed, b", clauses(512), (), 0b11, "held 0:ruled-out 1:possible | 0", "second 514 and 4", 1025),
    Case("512 clauses, one observed", clauses(512), (2,), 0b01, "refused 5", "513", 1025),
    Case("511 clauses, one observed", clauses(511), (2,), 0b01, "held 0:possible | 0", "first 1,024, second 514: the 512th clause", 1024),
    Case("511 clauses, one observed, one node short", clauses(511), (2,), 0b01, "refused 30", "first 1,024", 1023),
    Case("511 clauses, one observed twice", clauses(511), (2, 2), 0b01, "refused 5", "513", 1025),
    Case("510 clauses, one observed twice", clauses(510), (2, 2), 0b01, "held 0:possible | 0", "first 1,023", 1023),
    Case("480 clauses, 32 observed", clauses(480), (2,) * 32, 0b01, "held 0:possible | 0", "first 993, second 483: 512", 993),
    Case("480 clauses, 32 observed, one node short", clauses(480), (2,) * 32, 0b01, "refused 30", "first 993", 992),
    Case("481 clauses, 32 observed", clauses(481), (2,) * 32, 0b01, "refused 5", "513", 5000),
    Case("481 clauses, 31 observed", clauses(481), (2,) * 31, 0b01, "held 0:possible | 0", "first 994, second 484: 512", 994),
    Case("512 clauses, 32 observed", clauses(512), (2,) * 32, 0b01, "refused 5", "544", 5000),
    Case("512 clauses, one observed, budget 0", clauses(512), (2,), 0b01, "refused 5", "before any search", 0),
    Case("512 clauses, nothing observed, budget 0", clauses(512), (), 0b01, "refused 30", "the root is due", 0),
    Case("the longest image, nothing observed", longest(), (), ALL, f"held {each_of('unexplained')} |", "first 17: 16 wants, then a constraint",
         17),
    Case("the longest image, nothing observed, one node short", longest(), (), ALL, "refused 30", "first 17", 16),
    Case("the longest image, one observed", longest(), (64,), ALL, "refused 5", "512 clauses already"),
    Case("the longest group's image", shorter_longest(), (64,) * 32, ALL, f"held {each_of('unexplained')} |", "8,751 bytes with its facts", 17),
    Case("the longest group's image, other atoms", shorter_longest(), tuple(range(224, 256)), 1 << 63, "held 63:unexplained |",
         "8,751 bytes with its facts", 17),
    Case("the longest group's image, one node short", shorter_longest(), (64,) * 32, ALL, "refused 30", "first 17", 16),
]

# Records, read with P1: 41 and 42. Of the sound ones P1 answers as above; 32 wakes make 111 nodes.
FISH = "held 0:possible | 1 2"
WITH_WAKE = "held 0:possible | 1 2 4"
THIRTY_TWO = "0004 " * 32
RECORDS = [
    ("no bytes", "", "refused 41", "under 3 bytes"),
    ("one byte", "01", "refused 41", "under 3 bytes"),
    ("two bytes", "01 00", "refused 41", "under 3 bytes"),
    ("two bytes, half a length of 2", "01 02", "refused 41", "under 3 bytes"),
    ("three bytes", "01 0000", "refused 41", "length below 2"),
    ("three bytes and a length of 2", "01 0002", "refused 41", "the group number is missing"),
    ("length 1", "01 0001 07", "refused 41", "odd and below 2"),
    ("length 2", "01 0002 0007", FISH, "nothing observed"),
    ("length 3", "01 0003 0007 00", "refused 41", "odd"),
    ("length 4", "01 0004 0007 0004", WITH_WAKE, "one observed"),
    ("length 5", "01 0005 0007 0004 00", "refused 41", "odd"),
    ("length 65", "01 0041 0007 " + "0004 " * 31 + "00", "refused 41", "odd"),
    ("length 66", "01 0042 0007 " + THIRTY_TWO, WITH_WAKE, "32 observed"),
    ("length 67", "01 0043 0007 " + THIRTY_TWO + "00", "refused 41", "odd and above 66"),
    ("length 68", "01 0044 0007 " + THIRTY_TWO + "0004", "refused 41", "33 observed"),
    ("length 68 with 66 bytes", "01 0044 0007 " + THIRTY_TWO, "refused 41", "differs"),
    ("length 66 with 68 bytes", "01 0042 0007 " + THIRTY_TWO + "0004", "refused 41", "differs"),
    ("length 258", "01 0102 " + "0004 " * 129, "refused 41", "above 66, 2 in its low byte"),
    ("length 258 with 2 bytes", "01 0102 0007", "refused 41", "2 in its low byte"),
    ("length 260 with 4 bytes", "01 0104 0007 0004", "refused 41", "4 in its low byte"),
    ("length the wrong way round", "01 0200 0007", "refused 41", "little-endian"),
    ("length 65,535", "01 ffff 0007", "refused 41", "differs"),
    ("length 65,534", "01 fffe 0007 0004", "refused 41", "differs"),
    ("length 996, as it is", "01 03e4 " + "0004 " * 498, "refused 41", "above 66"),
    ("length 997, as it is, the longest of a case", "01 03e5 " + "0004 " * 498 + "00", "refused 41", "odd and above 66"),
    ("one byte too many", "01 0002 0007 00", "refused 41", "differs"),
    ("one field too many", "01 0002 0007 0004", "refused 41", "differs"),
    ("one byte short", "01 0004 0007 00", "refused 41", "differs"),
    ("one field short", "01 0004 0007", "refused 41", "differs"),
    ("length of the whole record", "01 0007 0007 0004", "refused 41", "the bytes behind the length count"),
    ("length of the atoms alone", "01 0002 0007 0004", "refused 41", "the group number counts"),
    ("number of the atoms", "01 0001 0007 0004", "refused 41", "bytes, not fields"),
    ("length 0 with a group", "01 0000 0007", "refused 41", "below 2, and differs"),
    ("length of four bytes", "01 00000004 0007 0004", "refused 41", "two bytes"),
    ("version 0", "00 0004 0007 0004", "refused 41", "version"),
    ("version 2", "02 0004 0007 0004", "refused 41", "version stays 1 for ever"),
    ("version 3", "03 0004 0007 0004", "refused 41", "version stays 1 for ever"),
    ("version 129", "81 0004 0007 0004", "refused 41", "the right low bits"),
    ("version 255", "ff 0004 0007 0004", "refused 41", "version"),
    ("version 2, three bytes", "02 0000", "refused 41", "version and length"),
    ("version missing", "0004 0007 0004", "refused 41", "0 is read as the version"),
    ("group 0", "01 0004 0000 0004", WITH_WAKE, "a group number is no atom: 0 is abducible, and this is no 42"),
    ("group 5", "01 0004 0005 0004", WITH_WAKE, "a group number is no atom: 5 is unknown, and this is no 42"),
    ("group 256", "01 0004 0100 0004", WITH_WAKE, "any group number"),
    ("group 65,535", "01 0004 ffff 0004", WITH_WAKE, "any group number"),
    ("group 65,535, nothing observed", "01 0002 ffff", FISH, "any group number"),
    ("atom 0, the first abducible", "01 0004 0007 0000", "refused 42", "abducible"),
    ("atom 2, the last abducible", "01 0004 0007 0002", "refused 42", "abducible"),
    ("atom 3, the first defined", "01 0004 0007 0003", "held 0:possible | 0", "spike"),
    ("atom 4, the last atom", "01 0004 0007 0004", WITH_WAKE, "wake"),
    ("atom 5, the first unknown", "01 0004 0007 0005", "refused 42", "unknown"),
    ("atom 6, the literal of spike", "01 0004 0007 0006", "refused 42", "atoms, not literals"),
    ("atom 256", "01 0004 0007 0100", "refused 42", "unknown, 0 in its low byte"),
    ("atom 260", "01 0004 0007 0104", "refused 42", "unknown, 4 in its low byte"),
    ("atom 1,024, wake the wrong way round", "01 0004 0007 0400", "refused 42", "unknown"),
    ("atom 65,535", "01 0004 0007 ffff", "refused 42", "unknown"),
    ("a good atom and an abducible", "01 0006 0007 0004 0001", "refused 42", "the second"),
    ("an abducible and a good atom", "01 0006 0007 0001 0004", "refused 42", "the first"),
    ("an abducible and an unknown atom", "01 0006 0007 0001 0005", "refused 42", "either"),
    ("the last of 32 abducible", "01 0042 0007 " + "0004 " * 31 + "0002", "refused 42", "the last"),
    ("the last of 32 unknown", "01 0042 0007 " + "0004 " * 31 + "0005", "refused 42", "the last"),
    ("the first of 32 unknown", "01 0042 0007 0005 " + "0004 " * 31, "refused 42", "the first"),
    ("32 of two kinds", "01 0042 0007 " + "0003 0004 " * 16, "held 0:possible | 0", "spike and wake"),
]

# 23: the whole set is tested once, before anything is searched.
BEYOND = [
    Case("hypothesis B", books.P1, (4,), 0b1000, "refused 23", "spike is no abducible"),
    Case("hypothesis B + 1", books.P1, (4,), 0b10000, "refused 23", "wake is no abducible"),
    Case("hypothesis A", books.P1, (4,), 0b100000, "refused 23", "no atom"),
    Case("hypothesis 63 of three", books.P1, (4,), 1 << 63, "refused 23", "the highest bit"),
    Case("hypothesis 32 of three", books.P1, (4,), 1 << 32, "refused 23", "0 in its low half"),
    Case("all 64 of three", books.P1, (4,), ALL, "refused 23", "61 of them beyond B"),
    Case("hypothesis B - 1", books.P1, (4,), 0b100, "held 2:possible | 1 2 4", "the last abducible"),
    Case("one good and B", books.P1, (4,), 0b1001, "refused 23", "no verdict on the good one"),
    Case("all good and B", books.P1, (4,), 0b1111, "refused 23", "no verdict on the good ones"),
    Case("one good and 63", books.P1, (4,), 1 << 63 | 1, "refused 23", "no verdict on the good one"),
    Case("B, budget 0", books.P1, (4,), 0b1000, "refused 23", "before 30", 0),
    Case("one good and B, budget 0", books.P1, (4,), 0b1001, "refused 23", "before the good one's 30", 0),
    Case("one good and B, room 0", books.P1, (4,), 0b1001, "refused 23", "before the good one's 31", 100, 0),
    Case("B where nothing explains", ALARM, (2,), 0b100, "refused 23", "seen is no abducible"),
    Case("B where B is A", THREE, (), 0b1000, "refused 23", "no atom"),
    Case("no abducible, hypothesis 0", NO_ABDUCIBLE, (0,), 0b1, "refused 23", "B is 0"),
    Case("no abducible, all", NO_ABDUCIBLE, (0,), ALL, "refused 23", "B is 0"),
    Case("no abducible, none named", NO_ABDUCIBLE, (0,), 0, "refused 40", "none named"),
    Case("P7, nothing in it", books.P7, (), 0b1, "refused 23", "B is 0"),
    Case("63 abducibles, the 64th named", image(books.abducibles(63) + "goal a0"), (), 1 << 63, "refused 23", "B is 63"),
    Case("63 abducibles, all named", image(books.abducibles(63) + "goal a0"), (), ALL >> 1,
         f"held 0:needed {each_of('possible', range(1, 63))} | 1", "first 2, second 3"),
]

# The order: two things wrong, the first of A4's order is the answer. 30 stands for budget 0, which is found last.
ORDER = (40, 41, 42, 5, 20, 21, 22, 23, 30)


def wrong(*numbers):
    """A group with these things wrong: (image, record, hypotheses, budget, room, work length)."""
    observed = (2, 0) if 42 in numbers else (2,)
    record = packed_record(7, observed)
    record = b"\0" + record[1:] if 41 in numbers else record
    hypotheses = 0 if 40 in numbers else 0b101 if 23 in numbers else 0b01
    budget = 1_000_001 if 22 in numbers else 0 if 30 in numbers else 5000
    return (clauses(512 if 5 in numbers else 10), record, hypotheses, budget, 1025 if 20 in numbers else 3, 16383 if 21 in numbers else WORK)


def at_once(one, other):
    """Whether both can be wrong in one group."""
    return {one, other} not in ({40, 23}, {22, 30})


def ordered():
    """Each pair; then everything wrong from each number on."""
    for place, first in enumerate(ORDER):
        yield f"{first} alone", wrong(first), first
        for second in ORDER[place + 1:]:
            if at_once(first, second):
                yield f"{first} before {second}", wrong(first, second), first
        yield f"{first} before all behind it", wrong(*ORDER[place:]), first
    yield "40 before 41, an empty record", (books.KELP, b"", 0, 5000, 3, WORK), 40
    yield "41 before 42, a length that differs", (books.KELP, raw("01 0004 0007 0000 0000"), 1, 5000, 3, WORK), 41
    yield "41 before 42, 33 abducibles", (books.KELP, packed_record(7, (0,) * 33), 1, 5000, 3, WORK), 41
    yield "41 before 5, 33 facts", (clauses(480), packed_record(7, (2,) * 33), 1, 5000, 3, WORK), 41
    yield "42 before 5, the last of 32", (clauses(500), packed_record(7, (2,) * 31 + (3,)), 1, 5000, 3, WORK), 42


# The book's own comes first and has no place here.
def own():
    for number, packed in books.REFUSED:
        yield f"refusal {number} passed on", (packed, packed_record(7, ()), 1, 100, 3, WORK), number
        yield f"refusal {number} before 40 and 41", (packed, b"", 0, 100, 3, WORK), number
        yield f"refusal {number} before all others", (packed, packed_record(7, (60000,)), ALL, 1_000_001, 1025, 3), number
    for turn, (name, packed, number, _) in enumerate(places.tenth(4)):
        yield name, (packed, *((packed_record(7, ()), 1, 100, 3, WORK), (b"", 0, 1_000_001, 1, 3))[turn % 2]), number


# Every book of which every hypothesis is asked: nothing observed, all hypotheses named, and those ruled out.
WORDS = {"u": "unexplained", "n": "needed", "p": "possible", "P": "possible", "r": "ruled-out"}


def every_hypothesis():
    for name, packed, room, first, sets, answers in asked.EVERY_HYPOTHESIS:
        found = [(number, *answer.split()) for number, answer in enumerate(answers.split(", "))]
        budget = max([first] + [int(second[1:]) for _, word, second in found if word in "Pr"])
        verdicts = " ".join(f"{number}:{WORDS[word]}" for number, word, _ in found)
        named = (1 << len(found)) - 1
        out = [number for number, word, _ in found if word == "r"]
        told = "deleted" if len(out) == len(found) else f"held {verdicts}"
        yield Case(f"{name}, all", packed, (), named, f"{told} | {sets}", f"at most {budget} nodes a search", budget, room)
        yield Case(f"{name}, all, one node short", packed, (), named, "refused 30", f"{budget} nodes", budget - 1, room)
        if 0 < len(out) < len(found):
            yield Case(f"{name}, those ruled out", packed, (), sum(1 << number for number in out), f"deleted | {sets}", "every one", budget, room)


def table():
    yield from OBSERVED + UNEXPLAINED + TWICE + NAMED + MEANS + LIMITS + BEYOND
    for name, digits, answer, why in RECORDS:
        yield Case(f"record: {name}", books.P1, raw(digits), 0b001, answer, why, 1000)
    for name, (packed, record, hypotheses, *means), number in (*ordered(), *own()):
        yield Case(name, packed, record, hypotheses, f"refused {number}", "the order of A4", *means)
    yield from every_hypothesis()


def full_line(short, room):
    """The whole line of a short form: the room's entries and the work area."""
    answer, _, sets = short.partition(" |")
    searched = not answer.startswith("refused") or answer in ("refused 30", "refused 31")
    entries = sets.split()
    entries += [str(0 if searched else LIST_BEFORE)] * (room - len(entries))
    return " ".join([answer, "sets", *entries, "work", "clean" if searched else "untouched"])


def stored():
    """(name, packed case, line), each answer written by hand and met by the cleaner."""
    for case in table():
        answer = full_line(case.answer, case.room)
        given = line_clean(*case.given())
        assert given == answer, (case.name, given, answer)
        yield f"{case.name} ({case.why})", pack_clean(*case.given()), answer
