"""Judges every set of small random books by a replay program and by this implementation.

A driver for the implementation beside it; shares no code with the engine.

    python3 -m tests.drivers.all_sets --replay "path/to/replay" --seed 1 --books 500
"""

import random
import sys

from tests.implementation.answers import pack_judge
from tests.drivers.shared import Comparison, options
from tests.generators.images import small_book
from tests.implementation.reader import encode


def main():
    chosen = options("judge every set of small books", "books", 500).parse_args()
    rng = random.Random(chosen.seed)
    comparison = Comparison(chosen.replay)
    for _ in range(chosen.books):
        book = small_book(rng)
        comparison.compare([pack_judge(encode(book), assumed) for assumed in range(2 ** book.abducibles + 1)])
    comparison.report()
    sys.exit(1 if comparison.differing else 0)


if __name__ == "__main__":
    main()
