"""Tries ./wizogbare as a new user would: every command, every sentence, every exit status.

    python3 -m tests.drivers.command

The programs `desk` and `listing` must be built. What building does is tried in a small checkout with a stand-in for `rt`, so
nothing is proved here. Ends with status 1 if anything differs from what is written below.
"""

import contextlib
import fcntl
import itertools
import json
import os
import pty
import re
import shutil
import subprocess
import sys
import tempfile
from collections import Counter
from pathlib import Path

from tests.generators.groups import group_records
from tests.implementation.cleaner import packed_record, program_lines
from tests.implementation.reader import read
from tests.stored import books
from tests.stored.stored_read import longest
from tests.stored.stored_text import LONGEST_BOOK, SPIKE, SPIKE_LINES, SPIKE_WIDE, padded

HERE = Path(__file__).resolve().parents[2]
COMMAND = (sys.executable, "-S", HERE / "wizogbare")
EXAMPLE = "books/example"
LISTED = "sets 2 nodes 15\n1: 0\n2: 1\n"
NOBODY = ("setpriv", "--reuid=65534", "--regid=65534", "--clear-groups")

tried = 0
differences = []


class Ran:
    """How a command ended: its status, and what it wrote."""

    def __init__(self, done):
        self.status = done.returncode
        self.out = (done.stdout or b"").decode()
        self.err = (done.stderr or b"").decode()


def run(*words, command=COMMAND, given=b"", **more):
    """The command on these words, from the checkout's top."""
    how = {"cwd": HERE, "input": given, "stdout": subprocess.PIPE, "stderr": subprocess.PIPE}
    if "stdin" in more:
        del how["input"]
    return Ran(subprocess.run([*command, *words], **{**how, **more}))


def shell(line):
    """A line of sh, from the checkout's top."""
    return run("-c", line, command=("sh",))


def note(what, meets, ran):
    global tried
    tried += 1
    if not meets:
        differences.append(what)
        print(f"DIFFERS: {what}: status {ran.status}\n{ran.out}{ran.err}")


def answers(what, ran, out):
    """The answer is exactly this, with status 0 and nothing on standard error."""
    note(what, (ran.status, ran.out, ran.err) == (0, out, ""), ran)


def record(what, ran, expected, status=0):
    """The answer is this JSON object, and one line."""
    note(what, ran.status == status and ran.out.count("\n") == 1 and json.loads(ran.out) == expected, ran)


def is_sentence(ran, part):
    return ran.err.startswith("wizogbare: ") and ran.err.count("\n") == 1 and part in ran.err


def refuses(what, ran, out, part):
    """A refusal: status 1, this line, and a sentence with its number and this part."""
    number = out.split()[1]
    note(what, ran.status == 1 and ran.out == out and is_sentence(ran, f"refused {number}: ") and part in ran.err, ran)


def holds(what, ran, out, refusals):
    """Lines of groups, some of them held by a refusal: status 1, and a sentence for each of these numbers with how many groups have it."""
    told = [f"wizogbare: refused {number} (groups: {count}): " for number, count in sorted(refusals.items())]
    found = ran.err.splitlines()
    meets = len(found) == len(told) and all(map(str.startswith, found, told))
    note(what, (ran.status, ran.out) == (1, out) and meets, ran)


def fails(what, ran, part):
    """A fault of usage, files or output: status 2, no answer, and a sentence with this part."""
    note(what, ran.status == 2 and ran.out == "" and is_sentence(ran, part), ran)


def ordinary():
    """What stands ahead of a command so that permissions bind it: root runs it as nobody. None where that cannot be."""
    if os.getuid() != 0:
        return ()
    with contextlib.suppress(FileNotFoundError):
        if run("-c", "", command=(*NOBODY, sys.executable)).status == 0:
            return NOBODY
    print("not tried: a file that may not be read, a checkout that cannot be written (root cannot run Python as nobody)")
    return None


# ---- answers

def try_text():
    answers("list", run("list", EXAMPLE), LISTED)
    answers("list of the empty set", run("list", "-", given=books.P7), "sets 1 nodes 1\n1: none\n")
    answers("list of nothing", run("list", "-", given=books.P10), "sets 0 nodes 6\n")
    answers("list, budget just enough", run("list", EXAMPLE, "--budget", "15"), LISTED)
    answers("list, options ahead", run("list", "--room", "2", EXAMPLE), LISTED)
    answers("check", run("check", EXAMPLE), "accepted\n")
    answers("judge", run("judge", EXAMPLE, "0"), "explains\n")
    answers("judge, two members", run("judge", EXAMPLE, "0,1"), "explains\n")
    answers("judge, goal", run("judge", EXAMPLE, "none"), "does not explain: goal literal 0 is false\n")
    answers("judge, constraint", run("judge", EXAMPLE, "2"), "does not explain: constraint 0 does not hold\n")
    answers("verdict possible", run("verdict", EXAMPLE, "0"), "possible nodes 15\n")
    answers("verdict ruled out", run("verdict", EXAMPLE, "2"), "ruled out nodes 29\n")
    answers("verdict ruled out, budget just enough", run("verdict", EXAMPLE, "2", "--budget", "15"), "ruled out nodes 29\n")
    answers("verdict needed", run("verdict", "-", "0", given=books.P8), "needed nodes 6\n")
    answers("verdict possible, in no smallest set", run("verdict", "-", "1", given=books.P8), "possible nodes 11\n")
    answers("verdict possible, budget just enough", run("verdict", "-", "1", "--budget", "4", given=books.KELP), "possible nodes 7\n")
    answers("verdict possible, room for the list alone", run("verdict", "-", "1", "--room", "1", given=books.P8), "possible nodes 11\n")
    answers("verdict unexplained", run("verdict", "-", "0", given=books.P10), "unexplained nodes 6\n")


def try_admits():
    answers("admits, admitted", run("admits", EXAMPLE, "0"), "admitted nodes 6\n")
    answers("admits, excluded", run("admits", EXAMPLE, "2"), "excluded nodes 14\n")
    answers("admits, in no smallest set", run("admits", "-", "1", given=books.P8), "admitted nodes 5\n")
    answers("admits, unexplained", run("admits", "-", "1", given=books.P10), "excluded nodes 7\n")
    answers("admits, budget just enough", run("admits", EXAMPLE, "2", "--budget", "14"), "excluded nodes 14\n")
    answers("admits, options ahead", run("admits", "--budget", "6", EXAMPLE, "0"), "admitted nodes 6\n")
    answers("admits, the largest budget", run("admits", EXAMPLE, "0", "--budget", "1000000"), "admitted nodes 6\n")
    record("admits --json", run("admits", EXAMPLE, "0", "--json"), {"answer": "admitted", "nodes": 6})
    record("admits --json, excluded", run("admits", EXAMPLE, "2", "--json"), {"answer": "excluded", "nodes": 14})
    ran = run("admits", EXAMPLE, "2", "--budget", "13", "--json")
    sentence = ran.err.removeprefix("wizogbare: refused 30: ").removesuffix("\n")
    record("admits --json, refused", ran, {"answer": "refused", "number": 30, "nodes": 13, "sentence": sentence}, 1)


def try_json():
    record("list --json", run("list", EXAMPLE, "--json"), {"answer": "listed", "sets": [[0], [1]], "nodes": 15})
    record("check --json", run("check", EXAMPLE, "--json"), {"answer": "accepted"})
    record("judge --json", run("judge", EXAMPLE, "0", "--json"), {"answer": "explains"})
    goal, constraint = run("judge", EXAMPLE, "none", "--json"), run("judge", EXAMPLE, "2", "--json")
    record("judge --json, goal", goal, {"answer": "does not explain", "false_goal": 0})
    record("judge --json, constraint", constraint, {"answer": "does not explain", "broken_constraint": 0})
    record("verdict --json", run("verdict", EXAMPLE, "2", "--json"), {"answer": "ruled out", "nodes": 29})
    ran = run("list", EXAMPLE, "--budget", "14", "--json")
    sentence = ran.err.removeprefix("wizogbare: refused 30: ").removesuffix("\n")
    record("list --json, refused", ran, {"answer": "refused", "number": 30, "nodes": 14, "sentence": sentence}, 1)


def try_listing():
    """`list` prints what the specification's printing program does, on every book and on damaged ones."""
    images = [path.read_bytes() for path in sorted((HERE / "books").iterdir()) if not path.suffix]
    images += [damaged for _, damaged in books.REFUSED] + [longest(), longest("00"), longest("00" * 300)]
    for place, each in enumerate(images):
        printed = run(HERE / "target/bin/listing", command=(HERE / "tests/run",), given=each)
        ran = run("list", "-", given=each)
        note(f"list as the printing program, image {place}", ran.out == printed.out != "", ran)


# ---- books as text

NAMED = "sets 2 nodes 15\n1: fish\n2: rock\n"
RULES = SPIKE.encode()

# Every form of a literal in a goal, and of a constraint, with the words that the judge's answer has for them.
ALL_FORMS = (b"p. q :- abd(a). q :- abd(b). true ---> abd(a) ; abd(b), p. abd(b), naf(q) ---> naf(p)."
             b" naf(abd(a)), p ---> abd(b) ; naf(abd(c)). abd(c) ---> false. ?- p, naf(abd(d)), naf(r), abd(e).")
FAILING = [
    ("d,e", "goal literal 1 is false: naf(abd(d))", {"false_goal": 1, "words": "naf(abd(d))"}),
    ("a", "goal literal 3 is false: abd(e)", {"false_goal": 3, "words": "abd(e)"}),
    ("e", "constraint 0 does not hold: true ---> abd(a) ; abd(b), p",
     {"broken_constraint": 0, "words": "true ---> abd(a) ; abd(b), p"}),
    ("a,c,e", "constraint 3 does not hold: abd(c) ---> false", {"broken_constraint": 3, "words": "abd(c) ---> false"}),
]

# Kelp explains the group, and kelp with rock does too.
KELP = b"group :- abd(kelp). abd(rock) ---> hard. hard. ?- group."

# A name that is the word for the empty set, and atoms with numbers that no set of 64 bits has.
CALLED_NONE = b"x :- abd(none). x :- abd(a), abd(b). ?- x."
MANY = b"x :- " + b", ".join(b"abd(a%d)" % j for j in range(64)) + b". ?- x, naf(y)."


def try_rules(folder):
    rules = folder / "rules.txt"
    rules.write_bytes(RULES)
    answers("list of a text", run("list", rules), NAMED)
    answers("list of a text, standard input", run("list", "-", given=RULES), NAMED)
    answers("list of a text from a pipe", shell(f"(head -c 9 {rules}; sleep 0.2; tail -c +10 {rules}) | ./wizogbare list -"), NAMED)
    answers("list of a text in lines", run("list", "-", given=SPIKE_LINES.encode()), NAMED)
    for blank in (b" ", b"\t", b"\n", b"\r"):
        answers(f"list of a text behind {blank}", run("list", "-", given=blank + RULES), NAMED)
    answers("list of a text of the greatest length", run("list", "-", given=padded(SPIKE, 32768).encode()), NAMED)
    answers("list of a text, room", run("list", rules, "--room", "2", "--budget", "15"), NAMED)
    answers("list of nothing, of a text", run("list", "-", given=b"a ---> false. ?- a."), "sets 0 nodes 1\n")
    answers("list of the empty set, of a text", run("list", "-", given=b"a. ?- a."), "sets 1 nodes 2\n1: none\n")
    answers("list of two names", run("list", "-", given=b"?- abd(b), abd(a)."), "sets 1 nodes 3\n1: b a\n")
    record("list --json of a text", run("list", rules, "--json"),
           {"answer": "listed", "sets": [["fish"], ["rock"]], "numbers": [[0], [1]], "nodes": 15})
    answers("check of a text", run("check", rules), "accepted\n")
    record("check --json of a text", run("check", rules, "--json"), {"answer": "accepted"})
    answers("verdict of a text, a name", run("verdict", rules, "fish"), "possible nodes 15\n")
    answers("verdict of a text, a number", run("verdict", rules, "2"), "ruled out nodes 29\n")
    record("verdict --json of a text", run("verdict", rules, "bubbles", "--json"), {"answer": "ruled out", "nodes": 29})
    answers("verdict of a text, in no smallest set", run("verdict", "-", "rock", given=KELP), "possible nodes 14\n")
    answers("admits of a text, a name", run("admits", rules, "fish"), "admitted nodes 6\n")
    answers("admits of a text, a number", run("admits", rules, "2"), "excluded nodes 14\n")
    answers("admits of a text, in no smallest set", run("admits", "-", "rock", given=KELP), "admitted nodes 7\n")
    record("admits --json of a text", run("admits", rules, "bubbles", "--json"), {"answer": "excluded", "nodes": 14})
    for word in ("fish", "rock", "fish,rock", "fish,fish", "0,fish", "1"):
        answers(f"judge of a text, {word}", run("judge", rules, word), "explains\n")
    answers("judge, a member twice", run("judge", EXAMPLE, "0,0"), "explains\n")
    answers("judge of a text, none", run("judge", rules, "none"), "does not explain: goal literal 0 is false: spike\n")
    answers("judge of a text, constraint", run("judge", rules, "bubbles"),
            "does not explain: constraint 0 does not hold: abd(bubbles) ---> wake\n")
    for word, said, found in FAILING:
        answers(f"judge in words, {word}", run("judge", "-", word, given=ALL_FORMS), f"does not explain: {said}\n")
        ran = run("judge", "-", word, "--json", given=ALL_FORMS)
        record(f"judge --json in words, {word}", ran, {"answer": "does not explain", **found})


def try_names(folder):
    rules = folder / "rules.txt"
    fails("judge, a name that is not there", run("judge", rules, "cod"), "rules.txt: this text has no `cod`")
    fails("judge, one name that is not there", run("judge", rules, "fish,cod,rock"), "this text has no `cod`")
    fails("judge, a fixed word", run("judge", rules, "true"), "this text has no `true`")
    fails("verdict, a name that is not there", run("verdict", rules, "cod"), "this text has no `cod`")
    fails("admits, a name that is not there", run("admits", rules, "cod"), "rules.txt: this text has no `cod`")
    fails("judge of an image, a name", run("judge", EXAMPLE, "fish"), "argument SET: `fish` is no set")
    fails("judge of an image, a name and a number", run("judge", EXAMPLE, "0,fish"), "argument SET: `0,fish` is no set")
    fails("verdict of an image, a name", run("verdict", EXAMPLE, "fish"), "argument H: `fish` is no number from 0")
    fails("verdict of an image, a name, and its help", run("verdict", EXAMPLE, "fish"), "(see ./wizogbare verdict --help)")
    fails("admits of an image, a name", run("admits", EXAMPLE, "fish"), "argument H: `fish` is no number from 0")
    fails("admits of an image, a name, and its help", run("admits", EXAMPLE, "fish"), "(see ./wizogbare admits --help)")
    for word in ("Fish", "fish,", "fish rock", "_x", "x" * 32, "naf(fish)", "abd(fish)"):
        fails(f"judge of a text, {word}", run("judge", rules, word), "is no set")
        fails(f"verdict of a text, {word}", run("verdict", rules, word), "is no number from 0")
        fails(f"admits of a text, {word}", run("admits", rules, word), "is no number from 0")
    for word in ("spike", "wake", "fish,wake", "3", "4"):
        refuses(f"judge of a text, {word}", run("judge", rules, word), "refused 23\n", "may not be assumed")
    for word in ("spike", "4", "4294967295"):
        refuses(f"verdict of a text, {word}", run("verdict", rules, word), "refused 23 nodes 0\n", "may not be assumed")
        refuses(f"admits of a text, {word}", run("admits", rules, word), "refused 23 nodes 0\n", "may not be assumed")
    refuses("judge, atom 64", run("judge", "-", "x", given=MANY), "refused 23\n", "may not be assumed")
    refuses("judge, atom 65 among others", run("judge", "-", "a0,y", given=MANY), "refused 23\n", "may not be assumed")
    refuses("verdict, atom 64", run("verdict", "-", "x", given=MANY), "refused 23 nodes 0\n", "may not be assumed")
    refuses("admits, atom 64", run("admits", "-", "x", given=MANY), "refused 23 nodes 0\n", "may not be assumed")
    answers("admits, abducible 63", run("admits", "-", "a63", given=MANY), "admitted nodes 68\n")
    answers("judge, abducible 63", run("judge", "-", ",".join(f"a{j}" for j in range(64)), given=MANY), "explains\n")
    answers("list, an abducible called none", run("list", "-", given=CALLED_NONE), "sets 2 nodes 6\n1: 0\n2: a b\n")
    record("list --json, an abducible called none", run("list", "-", "--json", given=CALLED_NONE),
           {"answer": "listed", "sets": [["none"], ["a", "b"]], "numbers": [[0], [1, 2]], "nodes": 6})
    answers("judge, an abducible called none is not the empty set", run("judge", "-", "none", given=CALLED_NONE),
            "does not explain: goal literal 0 is false: x\n")
    answers("judge, an abducible called none by its number", run("judge", "-", "0", given=CALLED_NONE), "explains\n")
    answers("judge, an abducible called none among others", run("judge", "-", "a,none", given=CALLED_NONE), "explains\n")
    answers("verdict, an abducible called none", run("verdict", "-", "none", given=CALLED_NONE), "possible nodes 6\n")
    answers("admits, an abducible called none", run("admits", "-", "none", given=CALLED_NONE), "admitted nodes 4\n")


REFUSED_TEXTS = [
    (50, b"spike :- abd(fish)", "ends in a full stop"), (50, b" ", "goal line"), (50, b"% rules\n?- a.", "no comments"),
    (50, padded(SPIKE, 32769).encode(), "longer than 32,768 bytes"), (51, b"?- x, abd(x).", "mark it everywhere, or nowhere"),
    (5, b"?- true.", "1 to 256 names"), (7, b"abd(x) :- y. ?- y.", "begins with abd("), (9, b"p :- naf(p). ?- p.", "depends on itself"),
]


def try_refused_texts(folder):
    for number, text, part in REFUSED_TEXTS:
        for words in (["list", "-"], ["check", "-"], ["judge", "-", "none"], ["judge", "-", "cod"], ["verdict", "-", "0"],
                      ["admits", "-", "0"], ["image", "-"]):
            refuses(f"{words[0]}, a text, {number}", run(*words, given=text), f"refused {number}\n", part)
    ran = run("list", "-", "--json", given=b"?-")
    sentence = ran.err.removeprefix("wizogbare: refused 50: ").removesuffix("\n")
    record("list --json of a text, refused", ran, {"answer": "refused", "number": 50, "sentence": sentence}, 1)
    rules = folder / "rules.txt"
    refuses("a text, budget used up", run("list", rules, "--budget", "14"), "refused 30 nodes 14\n", "budget was used up")
    refuses("a text, budget of admits used up", run("admits", rules, "fish", "--budget", "5"), "refused 30 nodes 5\n", "budget was used up")
    refuses("a text, room", run("list", rules, "--room", "1025"), "refused 20 nodes 0\n", "(--room, at most 1,024)")
    refuses("an empty file is an image", run("check", "-", given=b""), "refused 1 at 0\n", "shorter than 5 bytes")
    for first in (b"\x00", b"\x0b", b"\x1f", b"\x7f", b"\x80", b"\xef"):
        refuses(f"an image that begins with {first}", run("check", "-", given=first + RULES), "refused 2 at 0\n", "version")


# ---- images of texts

def try_image(folder):
    rules, book = folder / "rules.txt", folder / "book"
    answers("image -o", run("image", rules, "-o", book), "written 45 bytes\n")
    note("the image", book.read_bytes() == books.P1, run("check", book))
    answers("list of the image", run("list", book), LISTED)
    book.write_bytes(b"something else")
    record("image --json", run("image", rules, "--output", book, "--json"), {"answer": "written", "bytes": 45})
    note("the image in place of another file", book.read_bytes() == books.P1, run("check", book))
    for what, words, given in (("a file", [rules], b""), ("standard input", ["-"], SPIKE_WIDE.encode()), ("-o -", [rules, "-o", "-"], b"")):
        done = subprocess.run([*COMMAND, "image", *words], cwd=HERE, input=given, stdout=subprocess.PIPE, stderr=subprocess.PIPE)
        written = (done.returncode, done.stdout, done.stderr) == (0, books.P1, b"")
        note(f"image to standard output, {what}", written, run("check", "-", given=done.stdout))
    answers("image in a pipe", shell(f"./wizogbare image {rules} | ./wizogbare list -"), LISTED)
    answers("the longest image", run("image", "-", "-o", book, given=LONGEST_BOOK.encode()), "written 8751 bytes\n")
    answers("the longest image, more room", run("image", "-", "-o", book, "--room", "4294967295", given=LONGEST_BOOK.encode()),
            "written 8751 bytes\n")
    answers("image, room just enough", run("image", rules, "-o", book, "--room", "45"), "written 45 bytes\n")
    refuses("image, room", run("image", rules, "-o", book, "--room", "44"), "refused 52\n", "(--room): 8,751 bytes are enough")
    refuses("image, no room", run("image", rules, "--room", "0"), "refused 52\n", "too short")
    refuses("image of an image", run("image", EXAMPLE, "-o", book), "refused 50\n", "malformed")
    refuses("image of an empty file", run("image", "-", "-o", book), "refused 50\n", "malformed")
    note("a refusal leaves the book", book.read_bytes() == books.P1, run("check", book))
    refuses("a refusal and a new book", run("image", "-", "-o", folder / "new", given=b"?-"), "refused 50\n", "malformed")
    note("a refusal writes no book", not (folder / "new").exists(), run("check", book))
    link = folder / "link"
    link.symlink_to(book)
    answers("image through a link", run("image", "-", "-o", link, given=b"?- a."), "written 17 bytes\n")
    note("the link stays", link.is_symlink() and len(book.read_bytes()) == 17, run("check", book))
    note("nothing is left beside", not list(folder.glob(".*")), run("check", book))


def try_image_faults(folder):
    rules, book = folder / "rules.txt", folder / "book"
    for word in ("--help", "-h"):
        note(f"image {word}", "-o BOOK" in run("image", word).out, run("image", word))
    fails("image --json without -o", run("image", rules, "--json"), "--json needs -o BOOK")
    fails("image, no text", run("image"), "required: RULES")
    fails("image, two texts", run("image", rules, rules), "image takes one text")
    fails("image, another option", run("image", rules, "--budget", "5"), "image has no option --budget")
    fails("image, no such file", run("image", folder / "none", "-o", book), "there is no such file")
    fails("image, a folder", run("image", folder, "-o", book), "this is a folder")
    fails("image -o, a folder", run("image", rules, "-o", folder), "this is a folder")
    fails("image -o, an empty name", run("image", rules, "-o", ""), "an empty name: this is a folder")
    fails("image -o, no such folder", run("image", rules, "-o", folder / "none/book"), "this cannot be written: No such file")
    fails("image -o, below a file", run("image", rules, "-o", rules / "book"), "Not a directory")
    fails("image -o, a device", run("image", rules, "-o", "/dev/null"), "no ordinary file")
    fails("image -o, the text itself", run("image", rules, "-o", rules), "the text itself")
    fails("image -o, the text itself on standard input", shell(f"./wizogbare image - -o {rules} < {rules}"), "the text itself")
    note("the text stays", rules.read_bytes() == RULES, run("check", rules))
    fails("image, output full", shell(f"./wizogbare image {rules} >/dev/full"), "standard output cannot be written")
    fails("image, output closed", shell(f"./wizogbare image {rules} >&-"), "standard output")
    terminal, inside = pty.openpty()
    fails("image to a terminal", run("image", rules, stdout=inside), "not for a terminal")
    answers("image beside a terminal", run("image", rules, "-o", book, stderr=inside), "written 45 bytes\n")
    os.close(inside)
    os.close(terminal)


def try_join_of_names(folder):
    named, objects = folder / "named", folder / "named-objects"
    named.write_text(run("list", folder / "rules.txt").out)
    objects.write_text(run("list", folder / "rules.txt", "--json").out)
    part = "names have numbers only with their book"
    fails("join of names", run("join", named, folder / "left"), part)
    fails("join of names second", run("join", folder / "left", named), part)
    fails("join of names, no numbers", run("join", named, "-", given=b'{"sets": [["fish"], ["rock", "kelp"]]}'), part)
    for text in (b"sets 1\n1: fish 0\n", b"sets 2 nodes 5\n1: 0\n2: a Bad\n", b'{"sets": [["fish"]]}', b'{"sets": [[0], ["fish", 1]]}'):
        what = "no list of sets" if b"Bad" in text else part
        fails(f"join of {text}", run("join", folder / "left", "-", given=text), what)
    answers("join of numbers beside names", run("join", objects, "-", given=b"sets 1\n1: 2\n"), "sets 3\n1: 0\n2: 1\n3: 2\n")
    empty = run("list", "-", given=b"a. ?- a.").out.encode()
    answers("join of a text's empty set", run("join", objects, "-", given=empty), "sets 1\n1: none\n")
    fails("join of numbers that are none", run("join", objects, "-", given=b'{"sets": [["fish"]], "numbers": [[64]]}'), "no list of sets")


# ---- groups

def group(number, *observed):
    return packed_record(number, observed)


# Of the example: spike is atom 3, wake is atom 4.
SOME_GROUPS = group(1) + group(300, 4) + group(65535, 3, 4)
SOME_LINES = "group 1 held 0:possible 2:ruled-out\ngroup 300 held 0:possible 2:possible\ngroup 65535 held 0:possible 2:possible\n"
BROKEN_GROUPS = group(1) + group(2, 0) + bytes.fromhex("0200020004") + group(3)[:-1]
BROKEN_LINES = "group 1 deleted\ngroup 2 held refused 42\n" + 2 * "group ? held refused 41\n"
LONGEST_GROUPS = 262_144


def try_clean(folder):
    groups, broken = folder / "groups", folder / "broken-groups"
    groups.write_bytes(SOME_GROUPS)
    broken.write_bytes(BROKEN_GROUPS)
    for words in (["0", "2"], ["2", "0"], ["0", "2", "0"]):
        answers(f"clean {words}", run("clean", EXAMPLE, groups, *words), SOME_LINES)
    answers("clean, groups on standard input", run("clean", EXAMPLE, "-", "0", "2", given=SOME_GROUPS), SOME_LINES)
    pipe = f"(head -c 6 {groups}; sleep 0.2; tail -c +7 {groups})"
    answers("clean, groups from a pipe", shell(f"{pipe} | ./wizogbare clean {EXAMPLE} - 0 2"), SOME_LINES)
    answers("clean, the book on standard input", run("clean", "-", groups, "0", "2", given=books.P1), SOME_LINES)
    answers("clean, deleted", run("clean", EXAMPLE, "-", "2", given=group(7)), "group 7 deleted\n")
    one = folder / "one-group"
    one.write_bytes(group(0))
    answers("clean, needed and possible", run("clean", "-", one, "0", "1", given=books.P8), "group 0 held 0:needed 1:possible\n")
    answers("clean, unexplained", run("clean", "-", one, "0", given=books.P10), "group 0 held 0:unexplained\n")
    answers("clean, no groups", run("clean", EXAMPLE, "-", "0"), "")
    answers("clean, no groups and a broken book", run("clean", "-", os.devnull, "0"), "")
    holds("clean, refusals", run("clean", EXAMPLE, broken, "2"), BROKEN_LINES, {41: 2, 42: 1})
    holds("clean, a hypothesis of B", run("clean", EXAMPLE, one, "0", "3"), "group 0 held refused 23\n", {23: 1})
    holds("clean, the largest hypothesis", run("clean", EXAMPLE, one, "63"), "group 0 held refused 23\n", {23: 1})
    for number, damaged in books.REFUSED:
        holds(f"clean, {number}", run("clean", "-", one, "0", given=damaged), f"group 0 held refused {number}\n", {number: 1})
    part = "more than 262,144 bytes: cut it behind a group's record"
    fails("clean, groups too long", run("clean", EXAMPLE, "-", "0", given=bytes(LONGEST_GROUPS + 1)), part)
    lines = LONGEST_GROUPS // 3 * "group ? held refused 41\n" + "group ? held refused 41\n"
    holds("clean, the longest groups", run("clean", EXAMPLE, "-", "0", given=bytes(LONGEST_GROUPS)), lines, {41: LONGEST_GROUPS // 3 + 1})


def try_clean_json(folder):
    groups, broken = folder / "groups", folder / "broken-groups"
    told = [{"group": 1, "answer": "held", "verdicts": ["possible", "ruled out"]},
            {"group": 300, "answer": "held", "verdicts": ["possible", "possible"]},
            {"group": 65535, "answer": "held", "verdicts": ["possible", "possible"]}]
    record("clean --json", run("clean", EXAMPLE, groups, "2", "0", "--json"), {"answer": "cleaned", "hypotheses": [0, 2], "groups": told})
    record("clean --json of a text", run("clean", folder / "rules.txt", groups, "bubbles", "fish", "--json"),
           {"answer": "cleaned", "hypotheses": ["fish", "bubbles"], "numbers": [0, 2], "groups": told})
    record("clean --json, no groups", run("clean", EXAMPLE, "-", "0", "--json"), {"answer": "cleaned", "hypotheses": [0], "groups": []})
    ran = run("clean", EXAMPLE, broken, "2", "--json")
    sentences = {line.split()[2]: line.partition("): ")[2] for line in ran.err.splitlines()}
    told = [{"group": 1, "answer": "deleted"}, {"group": 2, "answer": "held", "number": 42},
            {"group": None, "answer": "held", "number": 41}, {"group": None, "answer": "held", "number": 41}]
    record("clean --json, refusals", ran, {"answer": "cleaned", "hypotheses": [2], "groups": told, "sentences": sentences}, 1)


def try_clean_of_text(folder):
    rules, groups = folder / "rules.txt", folder / "groups"
    named = SOME_LINES.replace("0:", "fish:").replace("2:", "bubbles:")
    for words in (["fish", "bubbles"], ["bubbles", "0"], ["2", "fish", "0"]):
        answers(f"clean of a text, {words}", run("clean", rules, groups, *words), named)
    answers("clean of a text, standard input", run("clean", "-", groups, "fish", "bubbles", given=RULES), named)
    holds("clean of a text, a name that is not abd", run("clean", rules, folder / "one-group", "spike"), "group 0 held refused 23\n", {23: 1})
    refuses("clean of a text, an atom that no set has", run("clean", "-", groups, "y", given=MANY), "refused 23\n", "stands in abd( )")
    refuses("clean of a text, 50", run("clean", "-", groups, "fish", given=b"?-"), "refused 50\n", "malformed")
    fails("clean, a name that is not there", run("clean", rules, groups, "fish", "cod"), "rules.txt: this text has no `cod`")
    fails("clean of an image, a name", run("clean", EXAMPLE, groups, "0", "fish"), "argument H: `fish` is no number from 0")
    fails("clean of an image, a name, and its help", run("clean", EXAMPLE, groups, "fish"), "(see ./wizogbare clean --help)")


def try_clean_faults(folder):
    groups = folder / "groups"
    fails("clean, no hypothesis", run("clean", EXAMPLE, groups), "required: H")
    fails("clean, no groups", run("clean", EXAMPLE), "required: GROUPS, H")
    fails("clean, both standard input", run("clean", "-", "-", "0"), "not both")
    fails("clean, no such groups", run("clean", EXAMPLE, folder / "none", "0"), "none: there is no such file")
    fails("clean, no such book", run("clean", folder / "none", groups, "0"), "none: there is no such file")
    fails("clean, groups a folder", run("clean", EXAMPLE, folder, "0"), "this is a folder")
    fails("clean, groups not to be read", run("clean", EXAMPLE, "/proc/self/mem", "0"), "this cannot be read")
    fails("clean, hypothesis 64", run("clean", EXAMPLE, groups, "0", "64"), "64 is no abducible: they are numbered from 0 to 63")
    fails("clean, budget", run("clean", EXAMPLE, groups, "0", "--budget", "5"), "clean has no option --budget")
    for wrong in ("x", "-1", "", "1e3", "4294967296"):
        fails(f"clean, hypothesis {wrong}", run("clean", EXAMPLE, groups, wrong), "is no number from 0")
    fails("clean, output full", shell(f"./wizogbare clean {EXAMPLE} {groups} 0 >/dev/full"), "standard output cannot be written")


def try_clean_files():
    """Files of groups, sound and damaged, on the books that stand as images, as the implementation has them."""
    for name, seed in (("example", 1), ("kelp", 2), ("ship", 3)):
        image = (HERE / "books" / name).read_bytes()
        for damaged in (False, True):
            data = group_records(read(image), 100, seed, damaged)
            lines = list(program_lines(image, data, 0b101))
            refused = Counter(int(line.split()[-1]) for line in lines if " refused " in line)
            ran = run("clean", f"books/{name}", "-", "0", "2", given=data)
            out = "".join(line + "\n" for line in lines)
            if refused:
                holds(f"clean, groups of {name}, damaged {damaged}", ran, out, refused)
            else:
                answers(f"clean, groups of {name}, damaged {damaged}", ran, out)


# ---- refusals

def try_refusals():
    for number, damaged in books.REFUSED:
        place = books.PLACES[number]
        told = f"byte {place}, counted from 0"
        for words in (["check", "-"], ["judge", "-", "0"]):
            refuses(f"{words[0]}, {number}", run(*words, given=damaged), f"refused {number} at {place}\n", told)
        for words in (["list", "-"], ["verdict", "-", "0"], ["admits", "-", "0"]):
            refuses(f"{words[0]}, {number}", run(*words, given=damaged), f"refused {number} nodes 0 at {place}\n", told)
    refuses("room", run("list", EXAMPLE, "--room", "1025"), "refused 20 nodes 0\n", "(--room, at most 1,024)")
    refuses("a very large room", run("list", EXAMPLE, "--room", "4294967295"), "refused 20 nodes 0\n", "(--room, at most 1,024)")
    refuses("budget", run("list", EXAMPLE, "--budget", "1000001"), "refused 22 nodes 0\n", "above 1,000,000")
    refuses("set", run("judge", EXAMPLE, "0,3"), "refused 23\n", "from 0 to one below")
    refuses("hypothesis", run("verdict", EXAMPLE, "4294967295"), "refused 23 nodes 0\n", "from 0 to one below")
    refuses("budget used up", run("list", EXAMPLE, "--budget", "14"), "refused 30 nodes 14\n", "budget was used up")
    refuses("verdict, budget", run("verdict", EXAMPLE, "0", "--budget", "0"), "refused 30 nodes 0\n", "(--budget, at most 1,000,000)")
    refuses("verdict, budget of the second search", run("verdict", "-", "1", "--budget", "3", given=books.KELP),
            "refused 30 nodes 6\n", "budget was used up")
    refuses("admits, hypothesis", run("admits", EXAMPLE, "3"), "refused 23 nodes 0\n", "from 0 to one below")
    refuses("admits, a very large hypothesis", run("admits", EXAMPLE, "4294967295"), "refused 23 nodes 0\n", "from 0 to one below")
    refuses("admits, budget", run("admits", EXAMPLE, "0", "--budget", "1000001"), "refused 22 nodes 0\n", "above 1,000,000")
    refuses("admits, budget used up", run("admits", EXAMPLE, "2", "--budget", "13"), "refused 30 nodes 13\n", "budget was used up")
    refuses("admits, no budget", run("admits", EXAMPLE, "0", "--budget", "0"), "refused 30 nodes 0\n", "(--budget, at most 1,000,000)")
    refuses("room used up", run("list", EXAMPLE, "--room", "1"), "refused 31 nodes 10\n", "(--room, at most 1,024)")


# ---- joining

def many(count, start):
    """A list of so many sets of 11 members, as it is printed, none inside another."""
    sets = itertools.islice(itertools.combinations(range(22), 11), start, start + count)
    return f"sets {count}\n" + "".join(f"{i}: {' '.join(map(str, each))}\n" for i, each in enumerate(sets, 1))


def try_join(folder):
    left, right, objects = folder / "left", folder / "right", folder / "objects"
    left.write_text(LISTED)
    right.write_text("sets 3 nodes 9\n1: 2\n2: 0 3\n3: 1 63\n")
    objects.write_bytes(run("list", EXAMPLE, "--json").out.encode())
    joined = "sets 3\n1: 0\n2: 1\n3: 2\n"
    answers("join", run("join", left, right), joined)
    answers("join, an object", run("join", objects, right), joined)
    answers("join, standard input", run("join", "-", right, given=LISTED.encode()), joined)
    answers("join, standard input second", run("join", right, "-", given=joined.encode()), joined)
    answers("join with the empty set", run("join", left, "-", given=b"sets 1\n1: none\n"), "sets 1\n1: none\n")
    answers("join of nothing", run("join", "-", left, given=b"sets 0 nodes 4\n"), "sets 2\n1: 0\n2: 1\n")
    record("join --json", run("join", left, right, "--json"), {"answer": "joined", "sets": [[0], [1], [2]]})
    refuses("join, room", run("join", left, right, "--room", "2"), "refused 31\n", "no room")
    fails("join, both standard input", run("join", "-", "-"), "not both")
    fails("join, one file", run("join", left), "required: FILE")
    fails("join, three files", run("join", left, right, left), "takes two files")
    fails("join, no file", run("join", left, folder / "none"), "no such file")
    fails("join, a folder", run("join", left, folder), "folder")


def try_long_lists(folder):
    first, second = folder / "first", folder / "second"
    first.write_text(many(512, 0))
    second.write_text(many(512, 512))
    note("join, 1,024 sets", run("join", first, second).out.startswith("sets 1024\n"), run("join", first, second))
    second.write_text(many(513, 512))
    refuses("join, 1,025 sets", run("join", first, second), "refused 31\n", "no room")
    second.write_text(many(1025, 0))
    refuses("join, a list too long", run("join", first, second), "refused 20\n", "at most 1,024 sets")


NO_LISTS = [
    b"", b"\n", b"\xff\n", b"refused 30 nodes 5\n",
    b"sets 2\n1: 0\n", b"sets 1\n2: 0\n", b"sets 1\n1:\n", b"sets 1\n1: 0", b"sets 1\n1: 0\n\n",
    b"sets 1\n1: 64\n", b"sets 1\n1: " + b"9" * 5000 + b"\n",
    b"{", b"{}", b"[[0]]", b'{"sets": ' + b"[" * 100000, b'{"answer": "refused", "number": 30}',
    b'{"sets": [[64]]}', b'{"sets": [["0"]]}', b'{"sets": [[true]]}',
]


def try_no_lists(folder):
    left = folder / "left"
    for wrong in NO_LISTS:
        fails(f"join, no list {wrong[:20]}", run("join", left, "-", given=wrong), "no list of sets")


# ---- usage

def try_usage():
    answers("--version", run("--version"), f"wizogbare {(HERE / 'VERSION').read_text()}")
    for words in ([], ["list"], ["check"], ["judge"], ["verdict"], ["admits"], ["clean"], ["join"], ["image"]):
        ran = run(*words, "--help")
        note(f"help {words}", ran.status == 0 and ran.out.startswith("usage: ./wizogbare") and ran.err == "", ran)
    fails("no command", run(), "COMMAND")
    fails("another command", run("frob", EXAMPLE), "invalid choice")
    fails("no file", run("list"), "required: FILE")
    fails("no set", run("judge", EXAMPLE), "required: SET")
    fails("verdict, no hypothesis", run("verdict", EXAMPLE), "required: H")
    fails("admits, no hypothesis", run("admits", EXAMPLE), "required: H")
    fails("admits, no file", run("admits"), "required: FILE, H")
    fails("a second file", run("list", EXAMPLE, "books/kelp"), "list takes one file, and `books/kelp` is too much")
    fails("a second file of check", run("check", EXAMPLE, "books/kelp"), "check takes one file")
    fails("a second set", run("judge", EXAMPLE, "0", "1"), "judge takes one file and one set")
    fails("a second hypothesis", run("verdict", EXAMPLE, "0", "1"), "verdict takes one file and one hypothesis")
    fails("a second hypothesis of admits", run("admits", EXAMPLE, "0", "1"), "admits takes one file and one hypothesis")
    fails("admits has no list", run("admits", EXAMPLE, "0", "--room", "5"), "admits has no option --room")
    fails("another option", run("list", EXAMPLE, "--fast"), "list has no option --fast")
    fails("half an option", run("list", EXAMPLE, "--bud", "5"), "list has no option --bud")
    for wrong in ("x", "-1", "", "1e3", "4294967296", "9" * 5000):
        fails(f"budget {wrong[:12]}", run("list", EXAMPLE, f"--budget={wrong}"), "is no number from 0")
        fails(f"hypothesis {wrong[:12]}", run("verdict", EXAMPLE, wrong), "is no number from 0")
        fails(f"budget of admits {wrong[:12]}", run("admits", EXAMPLE, "0", f"--budget={wrong}"), "is no number from 0")
        fails(f"hypothesis of admits {wrong[:12]}", run("admits", EXAMPLE, wrong), "is no number from 0")
    for wrong in ("x", "", "0,", "0 1", "all", "-1"):
        fails(f"set {wrong}", run("judge", EXAMPLE, wrong), "is no set")
    fails("set with 64", run("judge", EXAMPLE, "0,64"), "64 is no abducible")


# ---- files and output

def try_files(folder):
    answers("standard input", run("list", "-", given=books.P1), LISTED)
    answers("standard input from a pipe", shell(f"cat {EXAMPLE} | ./wizogbare list -"), LISTED)
    answers("a name with blanks", run("list", shutil.copy(HERE / EXAMPLE, folder / "a b")), LISTED)
    answers("from another folder", run("list", HERE / EXAMPLE, cwd=folder), LISTED)
    fails("a folder", run("list", "books"), "books: this is a folder")
    fails("no such file", run("list", "books/none"), "books/none: there is no such file")
    fails("an empty name", run("list", ""), "no such file")
    fails("a file below a file", run("list", "books/example/x"), "Not a directory")
    fails("standard input closed", shell("./wizogbare list - <&-"), "standard input is closed")
    fails("not to be read", run("list", "/proc/self/mem"), "this cannot be read")


def try_permissions(folder, checkout, ahead):
    """Before anything is built in the checkout."""
    unreadable = folder / "unreadable"
    unreadable.write_bytes(books.P1)
    unreadable.chmod(0)
    checkout.folder.chmod(0o555)
    fails("unreadable", run("list", unreadable, command=(*ahead, *COMMAND)), "may not be read")
    fails("not to be written", checkout.run(ahead=ahead), "cannot be written")
    ran = run("image", folder / "rules.txt", "-o", checkout.folder / "image", command=(*ahead, *COMMAND))
    fails("image -o, a folder not to be written", ran, "image: this cannot be written: Permission denied")
    checkout.folder.chmod(0o755)


def closed_pipe():
    """The end for writing of a pipe that nobody reads."""
    reading, writing = os.pipe()
    os.close(reading)
    return writing


def try_output():
    for line in (f"list {EXAMPLE}", f"check {EXAMPLE} --json", f"list {EXAMPLE} --budget 1", "--help", "--version"):
        fails(f"full: {line}", shell(f"./wizogbare {line} >/dev/full"), "standard output cannot be written")
        fails(f"closed: {line}", shell(f"./wizogbare {line} >&-"), "standard output")
        ran = run(*line.split(), stdout=closed_pipe())
        note(f"closed pipe: {line}", ran.status == 2 and ran.err == "", ran)
    ran = shell(f"./wizogbare list {EXAMPLE} --budget 1 2>/dev/full")
    note("full standard error", ran.status == 1 and ran.out == "refused 30 nodes 1\n", ran)


# ---- building

STAND_IN = """#!/bin/sh
if [ "$1" = version ]; then echo "$STAND_IN_VERSION"; exit; fi
[ "$*" = run ] && [ "$(basename "$PWD")" = desk ] || exit 9
echo "rt: chose --jobs 2 for desk" >&2
if [ -n "$STAND_IN_FAILS" ]; then echo "fn desk::main: not proved" >&2; exit 1; fi
echo "fn desk::main: proved" >&2
echo "logic=proved functions=1" >&2
mkdir -p out && cp "$STAND_IN_DESK" out/desk
echo "rt: running out/desk; to give it other input, run that file yourself" >&2
echo "unknown"
"""


class Checkout:
    """A small checkout with two crates and nothing built, and a stand-in for `rt`."""

    def __init__(self, folder):
        self.folder = folder
        self.tools = folder / "tools"
        for below in ("crates/base/src", "crates/desk/src", "tests", "tools"):
            (folder / below).mkdir(parents=True)
        for file in ("wizogbare", "VERSION", "TOOLCHAIN", "tests/run", "tests/build"):
            shutil.copy(HERE / file, folder / file)
        (folder / "crates.txt").write_text("base:\ndesk: base check   # the program\n")
        (folder / "crates/base/src/lib.rt").write_text("")
        (folder / "crates/desk/src/main.rt").write_text("")
        (folder / "book").write_bytes(books.P1)
        (self.tools / "rt").write_text(STAND_IN)
        (self.tools / "rt").chmod(0o755)
        self.version = (HERE / "TOOLCHAIN").read_text().strip()

    def environment(self, **changed):
        return {**os.environ, "PATH": f"{self.tools}:{os.environ['PATH']}", "STAND_IN_VERSION": self.version,
                "STAND_IN_DESK": str(HERE / "target/bin/desk"), **changed}

    def run(self, *words, ahead=(), **changed):
        """`list` on the example in this checkout, with these changes to the environment."""
        command = (*ahead, sys.executable, "-S", self.folder / "wizogbare")
        return run("list", "book", *words, command=command, cwd=self.folder, env=self.environment(**changed))


def try_faults_of_building(checkout):
    fails("no rt", checkout.run(PATH="/nowhere"), "`rt` is not on the PATH")
    fails("another toolchain", checkout.run(STAND_IN_VERSION="kit-9 logic 00"), "--any-toolchain")
    ran = checkout.run(STAND_IN_FAILS="yes")
    said = "the build failed (build: FAILED: desk): target/log/wizogbare.log"
    note("a failed build", (ran.status, ran.out) == (2, "") and said in ran.err, ran)
    log = (checkout.folder / "target/log/wizogbare.log").read_text()
    note("its log", "desk::main: not proved" in log, ran)


def built(what, ran, said):
    """The answer is the example's, and standard error has this first line and one for the crate that was proved."""
    first, *more = ran.err.splitlines()
    progress = len(more) == 1 and re.fullmatch(r"wizogbare:   2 of 2: desk proved \(\d+ s\)", more[0])
    note(what, (ran.status, ran.out) == (0, LISTED) and said in first and progress, ran)


def try_building(checkout):
    built("the first build", checkout.run(), "the first build proves everything and takes some minutes")
    answers("nothing to build", checkout.run(PATH="/usr/bin:/bin"), LISTED)
    source = checkout.folder / "crates/base/src/lib.rt"
    source.write_text("// edited\n")
    built("an edited source", checkout.run(), "the sources are newer")
    answers("nothing to build again", checkout.run(), LISTED)
    source.unlink()
    built("a source taken away", checkout.run(), "the sources are newer")
    (checkout.folder / "crates/other").mkdir()
    answers("a crate that is no part of it", checkout.run(), LISTED)
    (checkout.folder / "crates.txt").touch()
    ran = checkout.run("--any-toolchain", STAND_IN_VERSION="kit-9 logic 00")
    note("--any-toolchain", ran.status == 0 and ran.out == LISTED and "kit-9" in ran.err, ran)


def try_two_builds(checkout):
    """The lock is held here, as by another build, until the command says that it waits."""
    (checkout.folder / "crates.txt").touch()
    with open(checkout.folder / "target/wizogbare.lock", "w") as lock:
        fcntl.flock(lock, fcntl.LOCK_EX)
        waiting = subprocess.Popen([sys.executable, checkout.folder / "wizogbare", "list", "book"], cwd=checkout.folder,
                                   env=checkout.environment(), stdout=subprocess.PIPE, stderr=subprocess.PIPE)
        first = waiting.stderr.readline()
    out, err = waiting.communicate()
    ran = Ran(subprocess.CompletedProcess((), waiting.returncode, out, err))
    note("two builds", (ran.status, ran.out) == (0, LISTED) and b"another build is under way" in first, ran)


def try_old_python():
    pretend = "import runpy, sys; sys.version_info = (3, 9, 1); runpy.run_path('wizogbare', run_name='__main__')"
    ran = run(command=(sys.executable, "-c", pretend))
    fails("an old Python", ran, "this needs Python 3.10 or later, and this is Python 3.9")


def main():
    for program in ("desk", "listing"):
        if not (HERE / "target/bin" / program).exists():
            sys.exit(f"target/bin/{program} is not built: tests/build desk listing")
    with tempfile.TemporaryDirectory() as name:
        folder = Path(name)
        folder.chmod(0o755)
        for attempt in (try_text, try_admits, try_json, try_listing, try_refusals, try_usage, try_output, try_old_python):
            attempt()
        for attempt in (try_join, try_long_lists, try_no_lists, try_files):
            attempt(folder)
        for attempt in (try_rules, try_names, try_refused_texts, try_image, try_image_faults, try_join_of_names):
            attempt(folder)
        for attempt in (try_clean, try_clean_json, try_clean_of_text, try_clean_faults):
            attempt(folder)
        try_clean_files()
        checkout = Checkout(folder / "checkout")
        ahead = ordinary()
        if ahead is not None:
            try_permissions(folder, checkout, ahead)
        try_faults_of_building(checkout)
        try_building(checkout)
        try_two_builds(checkout)
        if ahead is not None:
            answers("built, and not to be written", checkout.run(ahead=ahead), LISTED)
    print(f"command: {tried} tried, {len(differences)} differ")
    sys.exit(1 if differences else 0)


if __name__ == "__main__":
    main()
