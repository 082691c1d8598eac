"""Books of which every hypothesis is asked, for the tables of the verdict and of the second search (paper 02, A3).

Written from the specification alone; shares no code with the engine. Every answer and node number is written by hand.

A second search has the root, with the hypothesis ahead of the goal, then the book's own tree with the hypothesis in T from its first
node on: nothing comes below a want of the hypothesis false. So it visits one node more than the first search at most, and that many only
where nothing denies the hypothesis and the one success is the first search's last node.
"""

from typing import NamedTuple

from tests.implementation.notation import image
from tests.stored import books

NEVER = image("abducible a; ->")
FREE = image("abducible a b; goal")

# (name, image, room, node number of the first search, its list, and for each hypothesis 0, 1 and on the verdict and the second search)
# The verdict by the list: u unexplained, n needed, p possible. By the second search: P possible, r ruled out.
# The second search: a admitted or e excluded, and its node number.

# The story of A3, told in several ways. Kelp is 0, rock is 1.
STORY = [
    ("kelp explains, rock is not mentioned", books.KELP, 2, 3, "1", "n a4, P a4"),
    ("kelp explains, and so does kelp with rock", books.KELP_OR_BOTH, 2, 6, "1", "n a4, P a4"),
    ("kelp with rock explains, and so does kelp",
     image("abducible kelp rock; goal group; group <- kelp rock; group <- kelp"), 2, 6, "1", "n a5, P a5"),
    ("rock brings kelp", image("abducible kelp rock; goal group; group <- kelp; rock -> kelp"), 2, 7, "1", "n a6, P a7"),
    ("never kelp with rock", image("abducible kelp rock; goal group; group <- kelp; kelp rock ->"), 2, 6, "1", "n a7, r e6"),
    ("either explains, never kelp with rock",
     image("abducible kelp rock; goal group; group <- kelp; group <- rock; kelp rock ->"), 2, 11, "1 2", "p a7, p a10"),
    ("kelp, or rock without weed, weed asked",
     image("abducible kelp rock weed; goal group; group <- kelp; group <- rock -weed"), 3, 6, "1 2", "p a4, p a4, P a4"),
    ("rock without weed only, weed asked", image("abducible rock weed; goal group; group <- rock -weed"), 1, 4, "1", "n a5, r e4"),
    ("rock brings sand and shell",
     image("abducible kelp rock sand shell; goal group; group <- kelp; rock -> sand shell"), 1, 8, "1", "n a6, P a8, P a6, P a6"),
    ("rock brings sand, and no sand was seen",
     image("abducible kelp rock sand; goal group; group <- kelp; rock -> sand; sand ->"), 1, 10, "1", "n a8, r e8, r e10"),
    ("kelp or rock, weed with rock only",
     image("abducible kelp rock weed; goal group; group <- kelp; group <- rock; kelp weed ->"), 2, 12, "1 2", "p a7, p a7, P a10"),
    ("kelp or rock, weed with neither",
     image("abducible kelp rock weed; goal group; group <- kelp; group <- rock; kelp weed ->; rock weed ->"), 2, 22, "1 2",
     "p a9, p a10, r e13"),
]

# The soundings of paper 01.
SOUNDINGS = [
    ("P1", books.P1, 3, 15, "1 2", "p a6, p a6, r e14"),
    ("P5", books.P5, 2, 16, "2", "r e14, n a14, r e16"),
    ("P6", books.P6, 3, 8, "1 2", "p a7, p a7"),
    ("a fact and a rule", books.FACT_AND_RULE, 3, 8, "1 2", "p a7, p a7"),
    ("a fact and a rule with a goal", books.FACT_AND_RULE_WITH_GOAL, 2, 8, "1 2", "p a7, p a7"),
    ("P8", books.P8, 1, 6, "1", "n a5, P a5"),
    ("P9", books.P9, 2, 7, "0", "P a5, P a5"),
    ("P10", books.P10, 2, 6, "", "u e5, u e7"),
    ("P11", books.P11, 2, 7, "0", "P a7, P a6"),
]

GOALS = [
    ("an abducible wanted", image("abducible a b; goal a"), 1, 2, "1", "n a3, P a3"),
    ("an abducible wanted twice", image("abducible a; goal a a"), 1, 3, "1", "n a4"),
    ("an abducible not wanted", image("abducible a; goal -a"), 1, 2, "0", "r e2"),
    ("a then not a", image("abducible a; goal a -a"), 1, 2, "", "u e3"),
    ("nothing to explain", FREE, 1, 1, "0", "P a2, P a2"),
    ("both needed", image("abducible a b; goal a b"), 1, 3, "3", "n a4, n a4"),
    ("the fifth of ten needed", image(books.abducibles(10) + "goal a4"), 1, 2, "16", "P a3, " * 4 + "n a3" + ", P a3" * 5),
    ("not wanted ahead of a choice", image("abducible a b c; goal -c x; x <- a; x <- b"), 2, 6, "1 2", "p a5, p a5, r e2"),
    ("not wanted behind a choice", image("abducible a b c; goal x -c; x <- a; x <- b"), 2, 7, "1 2", "p a5, p a5, r e6"),
    ("an atom without clauses wanted", image("abducible a; goal u"), 1, 1, "", "u e2"),
    ("a fact not wanted", image("abducible a; goal -f; f <-"), 1, 2, "", "u e3"),
]

CLAUSES = [
    ("one needed, two possible", image("abducible a b c; goal a x; x <- b; x <- c"), 2, 6, "3 5", "n a5, p a5, p a5"),
    ("one or two members", image("abducible a b c; goal x; x <- a b; x <- c"), 2, 6, "4 3", "p a5, p a5, p a5"),
    ("two members or one, the one first", image("abducible a b c; goal x; x <- a; x <- b c"), 2, 6, "1 6", "p a4, p a4, p a4"),
    ("in two of three sets", image("abducible a b c; goal x; x <- b c; x <- a c; x <- a b"), 3, 10, "3 5 6", "p a5, p a5, p a5"),
    ("only in a set that was dropped", image("abducible a b c; goal x; x <- a b; x <- c; x <- a"), 2, 8, "1 4", "p a5, P a5, p a5"),
    ("only in sets that the empty set dropped", image("abducible a b; goal x; x <- a; x <- b; x <-"), 2, 6, "0", "P a4, P a4"),
    ("two with both or without the second", image("abducible a b; goal x; x <- a b; x <- -b"), 2, 6, "0", "P a5, P a5"),
    ("one or the other, never both", image("abducible a b; goal x; x <- a -b; x <- -a b"), 2, 7, "1 2", "p a5, p a7"),
    ("denied by a clause alone", image("abducible a; goal x; x <- -a"), 1, 3, "0", "r e3"),
    ("denied by the first clause, free in the second", image("abducible a b; goal x; x <- -a; x <- b"), 2, 5, "0", "P a5, P a4"),
    ("free in the last of three clauses", image("abducible a b; goal x; x <- -a; x <- b -a; x <- b"), 2, 8, "0", "P a7, P a4"),
    ("below two atoms", image("abducible a b; goal p; p <- q; q <- r; r <- a"), 1, 5, "1", "n a6, P a6"),
    ("below two negations", image("abducible a b; goal x; x <- -y; y <- -a"), 1, 5, "1", "n a6, P a6"),
    ("four abducibles of which one is not named",
     image("abducible a b c d; goal x y; x <- a; y <- b; y <- d"), 2, 7, "3 9", "n a6, p a6, P a6, p a6"),
]

BREAKS = [
    ("by a break", image("abducible a b; goal -x; x <- -a; x <- -b"), 1, 6, "3", "n a7, n a7"),
    ("by a break with a choice", image("abducible a b; goal -x; x <- -a -b"), 2, 6, "1 2", "p a5, p a5"),
    ("a body of two denied", image("abducible a b; goal -x; x <- a b"), 1, 6, "0", "P a6, P a5"),
    ("two bodies denied", image("abducible a b; goal -x; x <- a; x <- b"), 1, 6, "0", "r e4, r e6"),
    ("a body of two denied, the second wanted", image("abducible a b c; goal -x b; x <- a b"), 1, 7, "2", "r e6, n a6, P a6"),
    ("denied with b and without it", image("abducible a b; goal -x; x <- a b; x <- a -b"), 2, 13, "0", "r e8, P a7"),
]

CONSTRAINTS = [
    ("never", NEVER, 1, 1, "", "u e2"),
    ("an alternative of two", image("abducible a b; -> a b"), 1, 4, "3", "n a5, n a5"),
    ("two alternatives", image("abducible a b; -> a | b"), 2, 5, "1 2", "p a4, p a4"),
    ("never without a", image("abducible a b; -a ->"), 1, 3, "1", "n a4, P a4"),
    ("never with a", image("abducible a; a ->"), 1, 3, "0", "r e3"),
    ("neither with a nor without it", image("abducible a; a ->; -a ->"), 1, 4, "", "u e3"),
    ("a wanted, never b", image("abducible a b; goal a; b ->"), 1, 4, "1", "n a5, r e4"),
    ("a asks for b", image("abducible a b; a -> b"), 1, 5, "0", "P a5, P a4"),
    ("a asks for three", image("abducible a b c d; a -> b c d"), 1, 7, "0", "P a7, P a4, P a4, P a4"),
    ("a asks for b and b for c", image("abducible a b c; a -> b; b -> c"), 2, 12, "0", "P a8, P a7, P a6"),
    ("a asks for b and b for c, never c", image("abducible a b c; a -> b; b -> c; c ->"), 1, 16, "0", "r e9, r e14, r e16"),
    ("a asks for an atom without clauses", image("abducible a; a -> u"), 1, 4, "0", "r e4"),
    ("a asks for a fact", image("abducible a; f <-; a -> f"), 1, 5, "0", "P a5"),
    ("a asks for its own absence", image("abducible a; a -> -a"), 1, 5, "0", "r e4"),
    ("a asks for itself", image("abducible a; a -> a"), 1, 5, "0", "P a5"),
    ("a with not a, never", image("abducible a; a -a ->"), 2, 5, "0", "P a5"),
    ("not a with a, never", image("abducible a; -a a ->"), 2, 5, "0", "P a4"),  # 9 nodes in all: paper 02, A6.8
    ("free in the last of three alternatives", image("abducible a b; -> -a | b -a | b a"), 3, 9, "0", "P a8, P a4"),
    ("an alternative in vain before the last", image("abducible a b; goal b; -> a -b | b"), 1, 6, "2", "P a7, n a7"),
]

EVERY_HYPOTHESIS = STORY + SOUNDINGS + GOALS + CLAUSES + BREAKS + CONSTRAINTS


class Asked(NamedTuple):
    """A hypothesis of one of these books."""

    name: str
    image: bytes
    hypothesis: int
    room: int
    first: int  # the node number of the first search
    sets: str
    verdict: str
    second: int  # the node number of the second search
    admitted: bool


def each():
    """Every hypothesis of every book."""
    for name, packed, room, first, sets, answers in EVERY_HYPOTHESIS:
        for hypothesis, answer in enumerate(answers.split(", ")):
            verdict, second = answer.split()
            yield Asked(f"{name}, hypothesis {hypothesis}", packed, hypothesis, room, first, sets, verdict, int(second[1:]), second[0] == "a")
