"""Holds docs/WRITING-BOOKS.md, the table of books/README.md, its run of a survey and the groups of docs/CLEANING.md against the independent
implementation.

    python3 -m tests.drivers.writing [--command]

On the page a block of rules is a file, whose name stands in the command below it; behind each command stands what it prints on standard
output. A name that begins with books/ is the file there. Every block of rules must have a command. In the table of mistakes what is written
must be refused by 50, and what it should be accepted. A row of docs/CLEANING.md with a record has what that observes in words, and its line; they and
books/survey.lines are of the survey, with its dangers kept safe. `--command` runs ./wizogbare too, for which the program `desk` must be built. Ends
with status 1 if anything differs.
"""

import re
import subprocess
import sys
import tempfile
from pathlib import Path

from tests.implementation import cleaner, reader, text
from tests.implementation.judge import judge
from tests.implementation.search import admits, listing, verdict

HERE = Path(__file__).resolve().parents[2]
PAGE = HERE / "docs/WRITING-BOOKS.md"
BOOKS = HERE / "books"
CLEANING = HERE / "docs/CLEANING.md"
SURVEYED = ["clean", "books/survey.rules", "books/survey.groups", "rock", "wreck"]

BUDGET, ROOM, WORK = 100_000, 256, 16_384
MARGIN = "    "
PROMPT = "$ ./wizogbare "


# The page.

def blocks(page):
    """The blocks that stand behind a margin, each as its lines; a blank line inside one is part of it."""
    found = re.findall(rf"(?:^{MARGIN}.*\n|^\n(?={MARGIN}))+", page, re.MULTILINE)
    return [[line[len(MARGIN):] for line in block.strip("\n").split("\n")] for block in found]


def steps(page):
    """What the page does: ("rules", text) for a block of rules, ("run", words, printed) for a command."""
    for lines in blocks(page):
        rules, *runs = re.split(rf"^{re.escape(PROMPT)}", "".join(line + "\n" for line in lines), flags=re.MULTILINE)
        if rules:
            yield "rules", rules
        for run in runs:
            line, _, printed = run.partition("\n")
            yield "run", line.split(), printed


class Files:
    """The files of the page: blocks of rules, images written, and those in books/."""

    def __init__(self):
        self.content = {}
        self.unnamed = None  # the last block of rules, until a command names it

    def add(self, rules):
        if self.unnamed is not None:
            sys.exit(f"no command for the rules\n{self.unnamed.decode()}")
        self.unnamed = rules.encode()

    def read(self, name):
        if self.unnamed is not None:
            self.content[name] = self.unnamed
            self.unnamed = None
        elif name not in self.content and name.startswith("books/"):
            return (HERE / name).read_bytes()
        return self.content[name]


# What a command prints, by the implementation.

def is_text(content):
    """Whether this is a text: it begins with a blank or a printable byte."""
    return content[:1] in (b" ", b"\t", b"\n", b"\r") or any(33 <= byte <= 126 for byte in content[:1])


class Refused(Exception):
    pass


class Book:
    """A book of the page: its image, and of a text the names and what it says."""

    def __init__(self, content):
        self.image, self.names, self.document = content, None, None
        if is_text(content):
            self.image, lines = text.written(content)
            if isinstance(self.image, int):
                raise Refused(self.image)
            self.names = lines.decode().split()
            self.document = text.parsed(content)

    def member(self, j):
        return self.names[j] if self.names else str(j)

    def number(self, word):
        return int(word) if word.isdecimal() else self.names.index(word)

    def set_line(self, entry):
        return " ".join(self.member(j) for j in range(reader.MOST_ABDUCIBLES) if entry >> j & 1) or "none"


def spelt(literal):
    atom = literal.atom.name.decode()
    word = f"abd({atom})" if literal.atom.marked else atom
    return f"naf({word})" if literal.negated else word


def spelt_literals(literals):
    return ", ".join(map(spelt, literals))


def spelt_constraint(constraint):
    alternatives = " ; ".join(map(spelt_literals, constraint.alternatives))
    return f"{spelt_literals(constraint.conditions) or 'true'} ---> {alternatives or 'false'}"


def option(words, name, otherwise):
    return int(words[words.index(name) + 1]) if name in words else otherwise


def said_list(book, words):
    result = listing(book.image, option(words, "--budget", BUDGET), option(words, "--room", ROOM), WORK)
    word, number = result.answer
    if word == "refused":
        return f"{result.told()}\n"
    sets = result.entries[:number]
    return f"sets {number} nodes {result.nodes}\n" + "".join(f"{i}: {book.set_line(each)}\n" for i, each in enumerate(sets, 1))


def said_check(book, words):
    found = reader.read(book.image)
    return "accepted\n" if isinstance(found, reader.Book) else f"refused {found}\n"


def said_judge(book, words):
    members = [] if words[0] == "none" else [book.number(word) for word in words[0].split(",")]
    word, *more = judge(book.image, sum(1 << j for j in set(members)))
    if word in ("explains", "refused"):
        return " ".join(map(str, (word, *more))) + "\n"
    place = more[0]
    if word == "goal":
        return f"does not explain: goal literal {place} is false: {spelt(book.document.goal[place])}\n"
    constraints = [found for found in book.document.statements if isinstance(found, text.Constraint)]
    return f"does not explain: constraint {place} does not hold: {spelt_constraint(constraints[place])}\n"


def said_verdict(book, words):
    result = verdict(book.image, book.number(words[0]), option(words, "--budget", BUDGET), option(words, "--room", ROOM), WORK)
    return f"{result.told()}\n"


def said_admits(book, words):
    return f"{admits(book.image, book.number(words[0]), option(words, '--budget', BUDGET), WORK).told()}\n"


def clean_lines(book, groups, words):
    """The lines of these groups, with the hypotheses as members of the book."""
    hypotheses = sum(1 << book.number(word) for word in words)
    for line in cleaner.program_lines(book.image, groups, hypotheses):
        yield re.sub(r"\b(\d+):", lambda found: f"{book.member(int(found[1]))}:", line) + "\n"


SAID = {"list": said_list, "check": said_check, "judge": said_judge, "verdict": said_verdict, "admits": said_admits}


def said(words, files):
    """What the command prints on standard output; an image is put among the files."""
    job, name, *more = words
    try:
        book = Book(files.read(name))
    except Refused as refused:
        return f"refused {refused}\n"
    if job == "image":
        assert more[0] == "-o", words
        files.content[more[1]] = book.image
        return f"written {len(book.image)} bytes\n"
    if job == "clean":
        return "".join(clean_lines(book, files.read(more[0]), more[1:]))
    return SAID[job](book, more)


def by_command(words, files):
    """What ./wizogbare prints on it."""
    with tempfile.TemporaryDirectory() as folder:
        for name, content in files.content.items():
            Path(folder, name).write_bytes(content)
        Path(folder, "books").symlink_to(BOOKS)
        return subprocess.run([HERE / "wizogbare", *words], cwd=folder, stdout=subprocess.PIPE, stderr=subprocess.DEVNULL).stdout.decode()


# The table of mistakes.

def mistakes(page):
    """Its rows: a statement that is 50, and the statements that it should be."""
    table = page.partition("| Written | Should be |\n")[2].partition("\n\n")[0]
    for wrong, right in re.findall(r"^\| `([^`]*)` \| (.*) \|$", table, re.MULTILINE):
        yield wrong, [code for code in re.findall(r"`([^`]*)`", right) if code.endswith(".")]


def refusal(statements):
    """The refusal of these statements with a goal line, or 0."""
    image, _ = text.written("\n".join([*statements, "?- spike."]).encode())
    return image if isinstance(image, int) else 0


# The table of books/README.md.

def rows():
    """Its rows: text, image or none, rules, sets as written."""
    table = (BOOKS / "README.md").read_text()
    return re.findall(r"^\| (\w+\.rules) \| (\w*) ?\| (\d+) \| (.*) \|$", table, re.MULTILINE)


def row_of(path):
    """The row that the file should have."""
    content = path.read_bytes()
    book = Book(content)
    image = path.with_suffix("")
    result = listing(book.image, BUDGET, ROOM, WORK)
    word, count = result.answer
    assert word == "listed", result.answer
    sets = ", or ".join(f"`{book.set_line(entry)}`" for entry in result.entries[:count])
    same = image.name if image.exists() and image.read_bytes() == book.image else ""
    return (path.name, same, str(len(book.document.statements)), sets)


# The groups of docs/CLEANING.md.

def group_rows():
    """The rows that have a record: what is observed, the record, the line."""
    return re.findall(r"^\| (.*) \| `([0-9a-f ]+)` \| `(group .*)` \|$", CLEANING.read_text(), re.MULTILINE)


def group_row(record):
    """The row that the record should have."""
    book = Book((HERE / SURVEYED[1]).read_bytes())
    group = bytes.fromhex(record)
    line, = clean_lines(book, group, SURVEYED[3:])
    found = cleaner.parsed(group)
    observed = "no record" if found is None else ", ".join(f"`{book.member(atom)}`" for atom in found[1]) or "nothing"
    return observed, record, line.rstrip("\n")


def main():
    tried, differences = 0, 0

    def note(what, expected, found):
        nonlocal tried, differences
        tried += 1
        if expected != found:
            differences += 1
            print(f"DIFFERS: {what}\nwritten:\n{expected}\nfound:\n{found}")

    page, files = PAGE.read_text(), Files()
    for step in steps(page):
        if step[0] == "rules":
            files.add(step[1])
            continue
        _, words, printed = step
        note(" ".join(words), printed, said(words, files))
        if "--command" in sys.argv[1:]:
            note(f"./wizogbare {' '.join(words)}", printed, by_command(words, files))
    note("a command for every block of rules", None, files.unnamed)
    for wrong, right in mistakes(page):
        note(f"a mistake: {wrong}", (50, 0), (refusal([wrong]), refusal(right)))
    lines = (BOOKS / "survey.lines").read_text()
    note("books/survey.lines", lines, said(SURVEYED, files))
    if "--command" in sys.argv[1:]:
        note(f"./wizogbare {' '.join(SURVEYED)}", lines, by_command(SURVEYED, files))
    for row in group_rows():
        note(f"a group: {row[2]}", row, group_row(row[1]))
    note("groups on docs/CLEANING.md", True, len(group_rows()) > 0)
    note("books/README.md", sorted(rows()), sorted(row_of(path) for path in BOOKS.glob("*.rules")))
    images = {path.name for path in BOOKS.iterdir() if not path.suffix}
    note("the images in books/", sorted(images), sorted(image for _, image, _, _ in rows() if image))
    print(f"writing: {tried} tried, {differences} differ")
    sys.exit(1 if differences else 0)


if __name__ == "__main__":
    main()
