"""Compares finished listings with another reasoner, gringo and clasp, subset-smallest answer sets of the same books.

Abducibles are a choice, clauses are rules, goal and constraints are integrity constraints. It installs nothing; it needs the
programs gringo and clasp (Debian's packages of these names) and a replay program.

    python3 -m tests.drivers.reasoner --replay "path/to/replay" --seed 1 --books 1000
"""

import json
import random
import shutil
import subprocess
import sys

from tests.implementation.answers import pack_list
from tests.drivers.shared import options, replayed
from tests.generators.images import choice_book, small_book
from tests.implementation.reader import encode


def atom(book, p):
    return f"a({p})" if p < book.abducibles else f"x({p})"


def literal(book, value):
    return ("not " if value % 2 else "") + atom(book, value // 2)


def rule(book, head, values):
    body = ", ".join(literal(book, value) for value in values)
    return f"{head} :- {body}." if body else f"{head}."


def program(book):
    """The book as a logic program whose answer sets are its explaining sets."""
    lines = [f"{{a({j})}}." for j in range(book.abducibles)]
    lines += [rule(book, atom(book, clause.head), clause.body) for clause in book.clauses]
    lines += [f":- {literal(book, value ^ 1)}." for value in book.goal]
    for k, constraint in enumerate(book.constraints):
        ways = [f"way({k},{i})" for i in range(len(constraint.alternatives))]
        lines += [rule(book, way, values) for way, values in zip(ways, constraint.alternatives)]
        parts = [literal(book, value) for value in constraint.conditions] + [f"not {way}" for way in ways]
        lines.append(":- " + ", ".join(parts) + "." if parts else ":- 1 = 1.")
    lines.append("#show a/1.")
    return "\n".join(lines)


def smallest(book):
    """The subset-smallest sets of abducibles by that reasoner, as numbers."""
    ground = subprocess.run(["gringo", "--warn=none"], input=program(book).encode(), stdout=subprocess.PIPE, check=True).stdout
    solve = ["clasp", "0", "--outf=2", "--heuristic=Domain", "--dom-mod=false,show", "--enum-mode=domRec"]
    answer = json.loads(subprocess.run(solve, input=ground, stdout=subprocess.PIPE, stderr=subprocess.DEVNULL, check=False).stdout)
    found = [witness["Value"] for call in answer.get("Call", []) for witness in call.get("Witnesses", [])]
    return sorted(sum(1 << int(atom[2:-1]) for atom in atoms) for atoms in found)


def listed(line):
    """The sets of a finished listing's line, or nothing."""
    words = line.split()
    if words[:1] != ["listed"]:
        return None
    start = words.index("sets") + 1
    return sorted(int(word) for word in words[start:start + int(words[1])])


def main():
    chosen = options("compare listings with gringo and clasp", "books", 1000).parse_args()
    missing = [name for name in ("gringo", "clasp") if not shutil.which(name)]
    if missing:
        sys.exit("this needs " + " and ".join(missing))
    rng = random.Random(chosen.seed)
    books = [rng.choice((small_book, choice_book))(rng) for _ in range(chosen.books)]
    lines = replayed(chosen.replay, [pack_list(encode(book), 1_000_000, 256, 16384) for book in books])
    finished = [(book, listed(line)) for book, line in zip(books, lines) if listed(line) is not None]
    differing = [book for book, sets in finished if sets != smallest(book)]
    for book in differing[:3]:
        print(encode(book).hex(), listed(lines[books.index(book)]), smallest(book))
    print(f"{len(finished)} books, {sum(len(sets) for _, sets in finished)} sets, {len(differing)} differences")
    sys.exit(1 if differing else 0)


if __name__ == "__main__":
    main()
