"""Compares a replay program with this implementation on generated cases.

Written from the specification alone; shares no code with the engine.

    python3 -m tests.drivers.compare --replay "path/to/replay" --seed 1 --count 20000 --operations 1,2
"""

import random
import sys

from tests.implementation.answers import Cases
from tests.drivers.shared import Comparison, batches, options
from tests.generators.cases import case
from tests.implementation.cleaner import begun, members
from tests.implementation.reader import Book, read
from tests.implementation.search import explore, settled, started


class Figures:
    """The largest book among the cases, the largest search and the longest path of one."""

    def __init__(self):
        self.image = self.nodes = self.path = 0

    def note(self, packed):
        cases = Cases(packed)
        operation = cases.number(1)
        if operation not in (1, 2, 3, 4, 7, 13):
            return
        image = cases.image()
        if operation == 7:
            return self.note_group(image, *cases.group(), *cases.means())
        if isinstance(read(image), Book):
            self.image = max(self.image, len(image))
        if operation == 3:
            self.note_searches(image, (), *cases.means())
        elif operation == 4:
            self.note_searches(image, (cases.number(4),), *cases.means())
        elif operation == 13:
            hypothesis, budget, work_length = cases.asked()
            book, refusal = started(image, budget, 0, work_length, hypothesis)
            if not refusal:
                self.note_search(explore(book, budget, 0, hypothesis))

    def note_group(self, image, record, hypotheses, *means):
        """The searches of a group, on the book with its facts."""
        number, packed = begun(image, record, hypotheses, *means)
        if not number:
            self.image = max(self.image, len(packed))
            self.note_searches(packed, members(hypotheses), *means)

    def note_searches(self, image, hypotheses, budget, room, work_length):
        """The first search, and a second one for each hypothesis that the list does not settle."""
        book, refusal = started(image, budget, room, work_length, max(hypotheses, default=None))
        if refusal:
            return
        first = explore(book, budget, room)
        self.note_search(first)
        if not first.refusal:
            for hypothesis in hypotheses:
                if not settled(first.kept, hypothesis):
                    self.note_search(explore(book, budget, 0, hypothesis))

    def note_search(self, search):
        self.nodes = max(self.nodes, search.nodes)
        self.path = max(self.path, search.longest)

    def report(self):
        print(f"largest book {self.image} bytes, largest search {self.nodes} nodes, longest path {self.path} nodes")


def main():
    parser = options("compare a replay program with this implementation", "count", 20000)
    parser.add_argument("--operations", default=[1], type=lambda text: [int(n) for n in text.split(",")])
    chosen = parser.parse_args()
    rng = random.Random(chosen.seed)
    comparison, figures = Comparison(chosen.replay), Figures()
    for size in batches(chosen.count):
        made = comparison.total
        turns = [chosen.operations[(made + i) % len(chosen.operations)] for i in range(size)]
        cases = [case(rng, operation) for operation in turns]
        comparison.compare(cases)
        for each in cases:
            figures.note(each)
    figures.report()
    comparison.report()
    sys.exit(1 if comparison.differing else 0)


if __name__ == "__main__":
    main()
