"""Writes a file of group records for a book, or the lines that `clean` prints for it (paper 02, A4).

Written from the specification alone; shares no code with the engine. A seed gives the same file again.

    python3 -m tests.generators.groups book > groups
    python3 -m tests.generators.groups book --hypotheses 0,3 > lines

`--damaged` spoils about one record in ten, so that each is still cut by its own length, and leaves the last one too short.
"""

import argparse
import random
import sys
from pathlib import Path

from tests.generators.surveys import bytes_changed, longer, some_observed, version_changed
from tests.implementation.cleaner import packed_record, program_lines
from tests.implementation.reader import Book, read


def group_records(book, count, seed, damaged=False):
    """So many records in one file, numbered from 1."""
    rng = random.Random(seed)
    defined = range(book.abducibles, book.atoms)
    found = []
    for number in range(1, count + 1):
        observed = some_observed(rng, book)
        if not damaged:
            observed = [atom for atom in observed if atom in defined]
        record = packed_record(number, observed)
        spoilt = damaged and rng.randrange(10) == 0
        found.append(rng.choice((version_changed, bytes_changed, longer))(rng, record) if spoilt else record)
    data = b"".join(found)
    return data[:-1] if damaged else data


def main():
    parser = argparse.ArgumentParser(description="a file of group records for a book")
    parser.add_argument("book", type=Path, help="the book's image")
    parser.add_argument("--count", type=int, default=100)
    parser.add_argument("--seed", type=int, default=1)
    parser.add_argument("--damaged", action="store_true")
    parser.add_argument("--hypotheses", help="print the lines of the program with these named, as 0,3")
    options = parser.parse_args()
    image = options.book.read_bytes()
    book = read(image)
    if not isinstance(book, Book):
        sys.exit(f"the book is refused {book}")
    data = group_records(book, options.count, options.seed, options.damaged)
    if options.hypotheses is None:
        sys.stdout.buffer.write(data)
    else:
        for line in program_lines(image, data, sum(1 << h for h in {int(word) for word in options.hypotheses.split(",")})):
            print(line)


if __name__ == "__main__":
    main()
