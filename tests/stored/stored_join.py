"""Stored cases of operation 5, the joiner.

Written from the specification alone; shares no code with the engine.
An answer written by hand has the short form `2: 1 2` (joined, and the list) or
`refused 31`; None stands where only the implementation was asked.
"""

from tests.implementation.answers import line_join, pack_join
from tests.implementation.joiner import LIST_BEFORE

TOP = 1 << 63
ALL = (1 << 64) - 1
SINGLES = [1 << j for j in range(64)]  # {0}, {1} and on
# Ten pairs, a member of each: 1,024 sets, none inside another.
CHOICES = [sum((1 + (n >> j & 1)) << 2 * j for j in range(10)) for n in range(1024)]
# The same in ten more pairs: 1,024 further sets, none inside another.
FURTHER = [s << 20 for s in CHOICES]

# (name, left, right, room, answer or None)
CASES = [
    ("two empty lists", [], [], 3, "0:"),
    ("two empty lists into no entries", [], [], 0, "0:"),
    ("two empty lists into one entry", [], [], 1, "0:"),
    ("one set on the left", [5], [], 3, "1: 5"),
    ("one set on the right", [], [5], 3, "1: 5"),
    ("one set on both sides", [5], [5], 3, "1: 5"),
    ("the empty set on the left", [0], [], 3, "1: 0"),
    ("the empty set on the right", [], [0], 3, "1: 0"),
    ("the empty set on both sides", [0], [0], 3, "1: 0"),
    ("the empty set drops all others", [0], [1, 2, 4, ALL], 3, "1: 0"),
    ("the empty set on the right drops all", [1, 2, 4, ALL], [0], 3, "1: 0"),
    ("the empty set last of many", [7, 3, 0], [5, 6], 2, "1: 0"),
    ("two sets apart", [1], [2], 3, "2: 1 2"),
    ("two sets apart, the other way", [2], [1], 3, "2: 1 2"),
    ("a subset on the left", [1], [3], 3, "1: 1"),
    ("a subset on the right", [3], [1], 3, "1: 1"),
    ("a subset within the left list", [3, 1], [], 3, "1: 1"),
    ("a subset within the right list", [], [3, 1], 3, "1: 1"),
    ("a subset before its superset in one list", [1, 3], [], 3, "1: 1"),
    ("sets that overlap", [3], [6], 3, "2: 3 6"),
    ("{2} before {0,1}", [3], [4], 3, "2: 4 3"),
    ("{2} before {0,1}, the other way", [4], [3], 3, "2: 4 3"),
    ("one member before two, unsorted", [3, 4], [24, 32], 5, "4: 4 32 3 24"),
    ("three members, then two, then one", [7 << 3, 3 << 1, 1], [], 3, "3: 1 6 56"),
    ("sizes before values", [128, 3, 96], [28], 4, "4: 128 3 96 28"),
    ("unsorted on both sides", [8, 1, 4], [2], 4, "4: 1 2 4 8"),
    ("unsorted by value, same size", [12, 3, 5], [6, 9, 10], 6, "6: 3 5 6 9 10 12"),
    ("a repeat on the left", [6, 6], [], 3, "1: 6"),
    ("a repeat on the right", [], [6, 6], 3, "1: 6"),
    ("repeats on both sides", [6, 6], [6, 6, 6], 1, "1: 6"),
    ("repeats apart from each other", [1, 2, 1], [2, 1, 4], 3, "3: 1 2 4"),
    ("repeats of what is dropped", [3, 3, 1], [3], 3, "1: 1"),
    ("repeats of the empty set", [0, 0, 0], [0], 1, "1: 0"),
    ("a chain of supersets", [1, 3, 7, 15, 31], [], 2, "1: 1"),
    ("a chain of supersets, downwards", [31, 15, 7, 3, 1], [], 2, "1: 1"),
    ("a chain over both lists", [31, 7, 1], [15, 3], 2, "1: 1"),
    ("two chains", [1, 3, 7], [8, 24, 56], 3, "2: 1 8"),
    ("two subsets of one set", [3], [1, 2], 3, "2: 1 2"),
    ("one subset of two sets", [3, 5], [1], 3, "1: 1"),
    ("a subset only by the middle set", [7, 3], [2], 3, "1: 2"),
    ("no subset although the value is smaller", [6], [1], 3, "2: 1 6"),
    ("no subset although the size is smaller", [7 << 1], [1], 3, "2: 1 14"),
    ("the highest member", [TOP], [], 2, f"1: {TOP}"),
    ("the highest and the lowest member", [TOP], [1], 2, f"2: 1 {TOP}"),
    ("the highest member before two low ones", [3], [TOP], 2, f"2: {TOP} 3"),
    ("all 64 members", [ALL], [], 2, f"1: {ALL}"),
    ("all 64 members on both sides", [ALL], [ALL], 2, f"1: {ALL}"),
    ("all 64 members and the highest", [ALL], [TOP], 2, f"1: {TOP}"),
    ("all but the highest and all", [TOP - 1], [ALL], 2, f"1: {TOP - 1}"),
    ("all but the highest and the highest", [TOP - 1], [TOP], 2, f"2: {TOP} {TOP - 1}"),
    ("all but the lowest and the lowest", [ALL - 1], [1], 2, f"2: 1 {ALL - 1}"),
    ("all but one, two ways", [ALL - 1], [ALL - 2], 2, f"2: {ALL - 2} {ALL - 1}"),
    ("all but the highest and all but the lowest", [ALL - 1], [TOP - 1], 2, f"2: {TOP - 1} {ALL - 1}"),
    ("members 31 and 32", [1 << 32], [1 << 31], 2, f"2: {1 << 31} {1 << 32}"),
    ("a superset by a high member only", [1 + TOP], [1], 2, "1: 1"),
    ("equal in the low half", [5 + (1 << 40)], [5 + (1 << 41)], 2, f"2: {5 + (1 << 40)} {5 + (1 << 41)}"),
    ("equal in the high half", [TOP + 1], [TOP + 2], 2, f"2: {TOP + 1} {TOP + 2}"),
    ("7, as the third list held before", [7], [], 2, "1: 7"),
    ("7 and its subset", [7], [5], 3, "1: 5"),
    ("a third of no entries, one set", [1], [], 0, "refused 31"),
    ("a third of no entries, the empty set", [0], [], 0, "refused 31"),
    ("a third of no entries, a set on the right", [], [9], 0, "refused 31"),
    ("room for just two", [1], [2], 2, "2: 1 2"),
    ("room short by one for two", [1], [2], 1, "refused 31"),
    ("room for one, the other dropped", [1], [3], 1, "1: 1"),
    ("room for one, the other repeated", [3], [3], 1, "1: 3"),
    ("room for just three", [1, 2], [4], 3, "3: 1 2 4"),
    ("room short by one for three", [1, 2], [4], 2, "refused 31"),
    ("room short by two for three", [1, 2], [4], 1, "refused 31"),
    ("room exceeded on the way only", [6, 10, 12], [2, 4, 8, 0], 1, "1: 0"),
    ("room exceeded on the way by pairs", [3, 5, 9, 17], [1], 1, "1: 1"),
    ("room to spare", [1], [2], 10, "2: 1 2"),
    ("all single members", SINGLES, [], 64, "64: " + " ".join(map(str, SINGLES))),
    ("all single members, downwards", SINGLES[::-1], [], 64, "64: " + " ".join(map(str, SINGLES))),
    ("all single members in halves", SINGLES[32:], SINGLES[:32], 64, "64: " + " ".join(map(str, SINGLES))),
    ("all single members, one entry short", SINGLES, [], 63, "refused 31"),
    ("all single members and all together", SINGLES, [ALL], 65, "64: " + " ".join(map(str, SINGLES))),
    ("all single members and the empty set", SINGLES, [0], 64, "1: 0"),
    ("all but one member, 64 ways", [ALL - s for s in SINGLES], [], 64,
     "64: " + " ".join(str(ALL - s) for s in reversed(SINGLES))),
    ("all pairs of four", [3, 5, 6], [9, 10, 12], 6, "6: 3 5 6 9 10 12"),
    ("all pairs of four and a single", [3, 5, 6, 9, 10, 12], [1], 6, "4: 1 6 10 12"),
    ("all subsets of three", [0, 1, 2, 3], [4, 5, 6, 7], 8, "1: 0"),
    ("all subsets of three but the empty", [1, 2, 3], [4, 5, 6, 7], 8, "3: 1 2 4"),
    ("all subsets of three from two members", [3, 5], [6, 7], 8, "3: 3 5 6"),
    ("all subsets of four from two members", [15, 14, 13, 12, 11, 10, 9], [7, 6, 5, 3], 6, "6: 3 5 6 9 10 12"),
    ("a listing of P1 and one of P5", [1, 2], [2], 3, "2: 1 2"),
    ("a listing of nothing and one of P1", [], [1, 2], 3, "2: 1 2"),
    ("1,024 entries on the left", [1] * 1024, [], 1, "1: 1"),
    ("1,024 entries on the right", [], [1] * 1024, 1, "1: 1"),
    ("1,024 entries on both sides", [1] * 1024, [2] * 1024, 2, "2: 1 2"),
    ("1,024 entries on both sides, room short by one", [1] * 1024, [2] * 1024, 1, "refused 31"),
    ("1,025 entries on the left", [1] * 1025, [], 2, "refused 20"),
    ("1,025 entries on the right", [], [1] * 1025, 2, "refused 20"),
    ("1,025 entries on both sides", [1] * 1025, [1] * 1025, 2, "refused 20"),
    ("1,025 entries on the left, a third of none", [1] * 1025, [], 0, "refused 20"),
    ("1,025 entries on the left, no room either", [1] * 1025, [2], 1, "refused 20"),
    ("1,100 entries on the left", [1] * 1100, [], 2, "refused 20"),
    ("1,024 entries in the third", [1], [2], 1024, "2: 1 2"),
    ("1,025 entries in the third", [1], [2], 1025, "refused 20"),
    ("1,100 entries in the third", [], [], 1100, "refused 20"),
    ("1,025 entries in all three", [1] * 1025, [1] * 1025, 1025, "refused 20"),
    ("1,024 different sets", CHOICES, [], 1024, "1024: " + " ".join(map(str, sorted(CHOICES)))),
    ("1,024 different sets, backwards", CHOICES[::-1], [], 1024, "1024: " + " ".join(map(str, sorted(CHOICES)))),
    ("1,024 different sets on both sides", CHOICES, CHOICES, 1024,
     "1024: " + " ".join(map(str, sorted(CHOICES)))),
    ("1,024 different sets, one entry short", CHOICES, [], 1023, "refused 31"),
    ("1,024 different sets and one more", CHOICES, [TOP], 1024, "refused 31"),
    ("1,024 different sets and the empty set", CHOICES, [0], 1024, "1: 0"),
    ("1,024 different sets and a superset", CHOICES, [ALL], 1024, "1024: " + " ".join(map(str, sorted(CHOICES)))),
    ("1,024 different sets each side", CHOICES, FURTHER, 1024, "refused 31"),
    ("half of 1,024 each side", CHOICES[:512], FURTHER[:512], 1024, None),
    ("half of 1,024 each side, one entry short", CHOICES[:512], FURTHER[:512], 1023, "refused 31"),
    ("1,024 different sets and one that cuts half", CHOICES, [1], 600, None),
    ("1,024 different sets and ones that cut all", CHOICES, [1, 2], 2, "2: 1 2"),
    ("numbers 0 to 1,023", list(range(1024)), list(range(1023, -1, -1)), 2, "1: 0"),
    ("numbers 1 to 1,023", list(range(1, 1024)), [], 10, "10: 1 2 4 8 16 32 64 128 256 512"),
    ("numbers 1 to 1,023, one entry short", list(range(1, 1024)), [], 9, "refused 31"),
    ("numbers 3 to 1,023 without single members",
     [n for n in range(3, 1024) if n & (n - 1)], [], 45, None),
    ("squares", [n * n for n in range(1, 200)], [], 200, None),
    ("cubes and squares", [n ** 3 for n in range(2, 300)], [n * n for n in range(2, 300)], 300, None),
    ("multiples of a great odd number",
     [n * 0x9E3779B97F4A7C15 & ALL for n in range(1, 200)], [n * 0xC2B2AE3D27D4EB4F & ALL for n in range(1, 200)],
     400, None),
]


def full_line(short, room):
    """The whole line of a short form."""
    if short.startswith("refused"):
        filling = "0" if short == "refused 31" else str(LIST_BEFORE)
        return " ".join([short, "sets", *[filling] * room])
    count, _, sets = short.partition(":")
    entries = sets.split()
    return " ".join(["joined", count, "sets", *entries, *["0"] * (room - len(entries))])


def stored():
    """(name, packed case, line); an answer written by hand is met by the joiner."""
    for name, left, right, room, short in CASES:
        answer = line_join(left, right, room)
        if short is not None:
            assert answer == full_line(short, room), (name, answer, full_line(short, room))
        yield name, pack_join(left, right, room), answer
