"""Compares the C lister with the independent Python implementation.

    python3 bench/check.py

Compared are the answer, the node number and every entry
of the list, on the benchmark's books and on 2,000 small random ones, with budgets and rooms about those that just do;
and the refusals of 5,000 images, most of them damaged. Searches above 200,000 nodes are left out, for Python takes too
long over them.
"""

import os
import random
import subprocess
import sys
import tempfile
from pathlib import Path

from books import MOST_ROOM, Book, Dice, entries, lines, names

HERE = Path(__file__).parent
RANDOM_BOOKS = 2000
IMAGES = 5000
TRIED_NODES = 3000  # how far a random book is searched to choose a budget and a room for it
MOST_NODES = 200_000
WORK_NUMBERS = 16384

sys.dont_write_bytecode = True
sys.path.append(str(HERE.parent))
# The Python implementation's.
from tests.generators import images
from tests.implementation import search


# Random books.

def some_constraint(dice, atoms):
    parts = [dice.body(atoms, 1 + dice.below(3), 3) for _ in range(dice.below(4))]
    return f"{dice.body(atoms, dice.below(3), 3)} -> {' | '.join(parts)}"


def any_text(dice):
    """Any small book, sometimes with many abducibles; atoms are numbered in another order than they depend."""
    abducibles = names("a", 40 + dice.below(25) if dice.below(10) == 0 else dice.below(8))
    defined = names("d", dice.below(9) + (not abducibles))
    atoms = abducibles + defined
    clauses = []
    for i, head in enumerate(defined):
        below = abducibles + defined[:i]  # so there is no loop
        clauses += [f"{head} <- {dice.body(below, dice.below(4) if below else 0, 3)}" for _ in range(dice.below(4))]
    return lines("abducible " + " ".join(abducibles), "defined " + " ".join(dice.some(defined, len(defined))),
                 "goal " + dice.body(atoms[-9:], dice.below(4), 3), dice.some(clauses, len(clauses)),
                 [some_constraint(dice, atoms) for _ in range(dice.below(5))])


def choice_text(dice):
    """Several atoms wanted, each with several clauses, few negations: often many smallest sets."""
    abducibles = names("a", 2 + dice.below(8))
    wanted = names("x", 1 + dice.below(3))
    return lines("abducible " + " ".join(abducibles), "goal " + " ".join(wanted),
                 [f"{x} <- {dice.body(abducibles, 1 + dice.below(3), 1)}" for x in wanted
                  for _ in range(1 + dice.below(4))],
                 [some_constraint(dice, abducibles + wanted) for _ in range(dice.below(3))])


def random_case(dice):
    """An image with a budget and a room, often those that just do or just do not."""
    text = (any_text, choice_text)[dice.below(2)](dice)
    image = Book(text).image()
    tried = search.listing(image, TRIED_NODES, MOST_ROOM, WORK_NUMBERS)
    count = tried.answer[1] if tried.answer[0] == "listed" else dice.below(MOST_ROOM)
    budget = max(0, tried.nodes + (-1, 0, 0, 1, TRIED_NODES, -dice.below(tried.nodes + 1))[dice.below(6)])
    room = max(0, count + (-1, 0, 0, 1, 16, -dice.below(count + 1))[dice.below(6)])
    return image, budget, min(room, MOST_ROOM)


# Both answers as lines.

def python_line(image, budget, room):
    result = search.listing(image, budget, room, WORK_NUMBERS)
    if result.work == "untouched":
        return f"refused {result.answer[1]}"
    kind = 0 if result.answer[0] == "listed" else 1
    return " ".join(map(str, (kind, result.answer[1], result.nodes, *result.entries)))


def nodes(line):
    words = line.split()
    return 0 if words[0] == "refused" else int(words[2])


def c_lines(cases, folder):
    program = folder / "answers"
    compiler = os.environ.get("CC", "cc")
    subprocess.run([compiler, "-O3", "-o", program, HERE / "answers.c", HERE / "lister.c", HERE / "reader.c"], check=True)
    words = []
    for i, (image, budget, room) in enumerate(cases):
        path = folder / str(i)
        path.write_bytes(image)
        words += [path, str(budget), str(room)]
    return subprocess.run([program, *words], stdout=subprocess.PIPE, text=True).stdout.splitlines()


def main():
    dice = Dice(1)
    cases = [(Book(entry.text).image(), entry.budget, entry.room) for entry in entries()]
    cases += [random_case(dice) for _ in range(RANDOM_BOOKS)]
    rng = random.Random(1)
    cases += [(images.image(rng), 100, 4) for _ in range(IMAGES)]
    with tempfile.TemporaryDirectory() as folder:
        answers = c_lines(cases, Path(folder))
    if len(answers) != len(cases):
        sys.exit(f"the C lister gave {len(answers)} of {len(cases)} answers")
    compared = [(case, line) for case, line in zip(cases, answers) if nodes(line) <= MOST_NODES]
    differing = [case for case, line in compared if line != python_line(*case)]
    for image, budget, room in differing[:5]:
        print(f"differs: budget {budget}, room {room}, image {image.hex()}")
    print(f"{len(compared)} images, {len(differing)} differences")
    sys.exit(1 if differing else 0)


if __name__ == "__main__":
    main()
