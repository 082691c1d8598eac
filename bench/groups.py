"""The benchmark's groups: a file of group records for each survey book, written into a folder.

    python3 groups.py FOLDER

Beside the books' images and the groups (`BOOK.groups`) stands `index`, a line `IMAGE GROUPS COUNT H,H,..` for each book and
number of hypotheses. A group observes some of what its book asks about and did not see; one in four also observes what
the book would explain, which may leave a constraint or a negated goal without any explanation.
"""

import sys
from pathlib import Path

from books import Book, Dice, survey

RECORD_VERSION = 1
GROUPS = 1000
FEWER_GROUPS = {"survey-anchorage": 200}  # of books with long searches
HYPOTHESES = (1, 4, 16)


def observations(book):
    """The defined atoms without a clause, which were not observed; and those that a clause with a body explains."""
    heads = {head for head, _ in book.clauses}
    explained = {head for head, body in book.clauses if body}
    return [atom for atom in range(book.abducibles, len(book.number)) if atom not in heads], sorted(explained)


def observed(dice, unseen, explained):
    """The atoms of one group, ascending."""
    atoms = [atom for atom in unseen if dice.below(2)]
    if dice.below(4) == 0:
        atoms.append(explained[dice.below(len(explained))])
    return sorted(atoms)


def record(number, atoms):
    rest = b"".join(field.to_bytes(2, "big") for field in (number, *atoms))
    return bytes([RECORD_VERSION]) + len(rest).to_bytes(2, "big") + rest


def groups(book, count, seed):
    dice = Dice(seed)
    places = observations(book)
    return b"".join(record(number, observed(dice, *places)) for number in range(1, count + 1))


def hypotheses(book):
    """The last 1, 4 and 16 abducibles, or all where there are fewer: the books name the likely causes first."""
    return [range(book.abducibles - count, book.abducibles)
            for count in sorted({min(count, book.abducibles) for count in HYPOTHESES})]


def write(folder):
    """The images, the groups and the index."""
    folder.mkdir(parents=True, exist_ok=True)
    index = []
    for seed, entry in enumerate(survey(), 1):
        book = Book(entry.text)
        count = FEWER_GROUPS.get(entry.name, GROUPS)
        image, file = folder / entry.name, folder / f"{entry.name}.groups"
        image.write_bytes(book.image())
        file.write_bytes(groups(book, count, seed))
        index += [f"{image} {file} {count} {','.join(map(str, safe))}\n" for safe in hypotheses(book)]
    (folder / "none.groups").write_bytes(b"")
    (folder / "index").write_text("".join(index))


if __name__ == "__main__":
    if len(sys.argv) != 2:
        sys.exit(__doc__)
    write(Path(sys.argv[1]))
