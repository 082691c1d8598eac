"""Compares the C cleaner with the independent Python implementation.

    python3 bench/check_clean.py

Compared are the lines of files of groups, some of whose records are damaged: on 600 small random books, on 200 images of
which most are damaged, and on the survey books but the one with the longest searches.
"""

import os
import random
import subprocess
import sys
import tempfile
from pathlib import Path

from books import Book, Dice, survey
from check import any_text, choice_text

# The Python implementation's; check.py says where it is.
from tests.generators import images
from tests.generators.groups import group_records
from tests.implementation import reader
from tests.implementation.cleaner import packed_record, program_lines

HERE = Path(__file__).parent
RANDOM_BOOKS = 600
IMAGES = 200
LONGEST_SEARCHES = "survey-anchorage"
GROUPS = 10
MOST_MEMBERS = 64


def all_images():
    dice, rng = Dice(1), random.Random(1)
    yield from (Book((any_text, choice_text)[dice.below(2)](dice)).image() for _ in range(RANDOM_BOOKS))
    yield from (images.image(rng) for _ in range(IMAGES))
    yield from (Book(entry.text).image() for entry in survey() if entry.name != LONGEST_SEARCHES)


def case(rng, image):
    """The image, a file of groups for it, and hypotheses, one in ten times beyond its abducibles."""
    book = reader.read(image)
    if not isinstance(book, reader.Book):
        return image, packed_record(1, []), [0]
    beyond = rng.randrange(10) == 0 or book.abducibles == 0
    below = MOST_MEMBERS if beyond else book.abducibles
    groups = group_records(book, GROUPS, rng.randrange(1 << 32), rng.randrange(2) == 0)
    return image, groups, sorted(rng.sample(range(below), rng.randint(1, min(below, 6))))


def c_lines(program, folder, image, groups, hypotheses):
    (folder / "image").write_bytes(image)
    (folder / "groups").write_bytes(groups)
    words = [program, folder / "image", folder / "groups", *map(str, hypotheses)]
    return subprocess.run(words, stdout=subprocess.PIPE, text=True, check=True).stdout.splitlines()


def main():
    rng = random.Random(1)
    cases = [case(rng, image) for image in all_images()]
    lines = differing = 0
    with tempfile.TemporaryDirectory() as name:
        folder = Path(name)
        program = folder / "clean"
        sources = [HERE / source for source in ("clean.c", "lister.c", "reader.c")]
        subprocess.run([os.environ.get("CC", "cc"), "-O3", "-o", program, *sources], check=True)
        for image, groups, hypotheses in cases:
            wanted = list(program_lines(image, groups, sum(1 << h for h in hypotheses)))
            lines += len(wanted)
            if c_lines(program, folder, image, groups, hypotheses) != wanted:
                differing += 1
                print(f"differs: image {image.hex()}, groups {groups.hex()}, hypotheses {hypotheses}")
    print(f"{len(cases)} files, {lines} lines, {differing} differences")
    sys.exit(1 if differing else 0)


if __name__ == "__main__":
    main()
