"""The benchmark's texts, written into a folder.

    python3 texts.py FOLDER

Beside the texts stands `index`, a line with the path of each.
"""

import itertools
import string
import sys
from dataclasses import dataclass
from pathlib import Path

LONGEST_TEXT = 32768
LONGEST_NAME = 31
ABDUCIBLES, OTHERS, CLAUSES, CONSTRAINTS, GOAL = 64, 192, 512, 128, 16
SURVEY = Path(__file__).parent.parent / "books/basin.rules"
FIXED = ("abd", "naf", "true", "false")


@dataclass(frozen=True)
class Entry:
    """A text of the benchmark."""

    name: str
    text: bytes


# Names.

def short_names():
    """All names, the shortest first."""
    first, more = string.ascii_lowercase, string.ascii_lowercase + string.ascii_uppercase + string.digits + "_"
    for length in itertools.count(1):
        for letters in itertools.product(first, *[more] * (length - 1)):
            name = "".join(letters)
            if name not in FIXED:
                yield name


def long_name(letter, i):
    """A name of 31 bytes."""
    return f"{letter}{i:03}_sounding_off_the_outer_wall_"[:LONGEST_NAME]


def padded(text):
    """The text with spaces behind it, up to the greatest length."""
    return text.ljust(LONGEST_TEXT)


# Texts.

def long_names():
    """The longest accepted text: 256 names of 31 bytes, 512 clauses, 128 constraints, a goal of 16, and as many bodies as fit."""
    abducibles = [f"abd({long_name('a', i)})" for i in range(ABDUCIBLES)]
    others = [long_name("d", i) for i in range(OTHERS)]
    constraints = [f"{abducible}--->false." for abducible in abducibles]
    constraints += [f"true--->{other}." for other in others[:CONSTRAINTS - ABDUCIBLES]]
    goal = f"?-{','.join(others[-GOAL:])}."
    clauses = [f"{others[j % OTHERS]}." for j in range(CLAUSES)]
    left = LONGEST_TEXT - len("".join(constraints + clauses) + goal)
    for j in range(CLAUSES):
        i = j % OTHERS
        body = f":-{others[i - 1]}." if i > 0 else f":-naf({abducibles[0]})."  # of a lower place, so there is no loop
        if len(body) - 1 > left:
            break
        left -= len(body) - 1
        clauses[j] = others[i] + body
    return padded("".join(constraints + clauses) + goal)


def at_the_limits():
    """Every limit used up, with names of one and two letters, and blanks as one types them."""
    names = itertools.islice(short_names(), ABDUCIBLES + OTHERS)
    abducibles = [f"abd({name})" for name in itertools.islice(names, ABDUCIBLES)]
    others = list(names)
    clauses = []
    for j in range(CLAUSES):
        i = j % OTHERS
        below = others[i - 1] if i > 0 else abducibles[-1]
        clauses.append(f"{others[i]} :- {abducibles[j % ABDUCIBLES]}, naf({below}).\n")
    constraints = []
    for k in range(CONSTRAINTS):
        some = [f"naf({others[(5 * k + i) % OTHERS]})" if i % 2 else abducibles[(k + i) % ABDUCIBLES] for i in range(8)]
        constraints.append(f"{some[0]}, {some[1]} ---> {some[2]}, {some[3]} ; {some[4]} ; {some[5]}, {some[6]}, {some[7]}.\n")
    return "".join(clauses + constraints) + f"?- {', '.join(others[-GOAL:])}.\n"


def many_names():
    """As many different names as fit, a fact each but the last, which is the goal."""
    found, left = [], LONGEST_TEXT - len("?-")
    for name in short_names():
        if len(name) + 1 > left:
            break
        left -= len(name) + 1
        found.append(name)
    return padded("".join(f"{name}." for name in found[:-1]) + f"?-{found[-1]}.")


def many_names_both_ways():
    """The same, with the goal one of the last facts' names once more, marked."""
    facts = many_names().split("?-")[0]
    name = facts.rstrip(".").split(".")[-10]
    goal = f"?-abd({name})."
    while len(facts + goal) > LONGEST_TEXT:
        facts = facts[:facts.rstrip(".").rindex(".") + 1]
    return padded(facts + goal)


def entries():
    return [Entry(name, text.encode()) for name, text in (
        ("long-names", long_names()),
        ("survey-basin", SURVEY.read_text()),
        ("limits-short", at_the_limits()),
        ("many-names", many_names()),
        ("both-ways", many_names_both_ways()),
    )]


def main():
    folder = Path(sys.argv[1])
    folder.mkdir(parents=True, exist_ok=True)
    paths = []
    for entry in entries():
        path = folder / entry.name
        path.write_bytes(entry.text)
        paths.append(f"{path}\n")
    (folder / "index").write_text("".join(paths))


if __name__ == "__main__":
    main()
