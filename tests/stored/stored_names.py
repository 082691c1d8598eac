"""Stored cases of operation 12, the names of a text's atoms: (name, text, answer written by hand).

Written from the specification alone; shares no code with the engine.
An answer is the refusal's number, or the names in their order with a space between them. A name begins with the point of paper 02 that the
case is about; A1.11 is the call itself.
"""

from tests.implementation.answers import line_names, pack_names
from tests.stored import stored_text
from tests.stored.stored_text import (LONGEST, LONGEST_BOOK, MOST, ROOM, SPIKE, SPIKE_LINES, SPIKE_TIGHT, SPIKE_WIDE, facts, listed, marked,
                                      numbers, padded, short_names)

SPIKE_NAMES = "fish rock bubbles spike wake"  # with their line ends 29 bytes
EVERY = stored_text.EVERY

ORDER = [
    ("A1.11: P1", SPIKE, SPIKE_NAMES),
    ("A1.11: P1 in lines", SPIKE_LINES, SPIKE_NAMES),
    ("A1.11: P1 without a blank", SPIKE_TIGHT, SPIKE_NAMES),
    ("A1.11: P1 with blanks of every kind", SPIKE_WIDE, SPIKE_NAMES),
    ("A1.11: P5", "wet :- abd(rain). wet :- abd(sprinkler). abd(rain) ---> abd(cloudy). abd(cloudy) ---> false. ?- wet.",
     "rain sprinkler cloudy wet"),
    ("A1.11: P6", "p :- naf(q). q :- naf(r). r :- abd(a). r :- abd(b). ?- p.", "a b p q r"),
    ("A1.11: P8", "x :- abd(a), abd(b). x :- abd(a). ?- x.", "a b x"),
    ("A1.11: P9", "x :- abd(a), abd(b). x :- naf(abd(a)), naf(abd(b)). ?- x.", "a b x"),
    ("A1.11: P10", "p :- abd(a). p ---> false. true ---> abd(a). ?- true.", "a p"),
    ("A1.11: P11", "campus :- naf(ski). ski :- abd(saturday), naf(abd(snow)). ?- campus.", "saturday snow campus ski"),
    ("A1.9: one atom", "?- a.", "a"),
    ("A1.9: one abducible", "?- abd(a).", "a"),
    ("A1.9: one negation", "?- naf(a).", "a"),
    ("A1.9: one negated abducible", "?- naf(abd(a)).", "a"),
    ("A1.9: an atom many times", "a. a. a :- b, b. b ---> a. ?- a, b, a.", "a b"),
    ("A1.9: abducibles before the others", "?- a, abd(b), c, abd(d).", "b d a c"),
    ("A1.9: not by the alphabet", "?- c, a, b.", "c a b"),
    ("A1.9: abducibles not by the alphabet", "?- abd(c), abd(a), abd(b).", "c a b"),
    ("A1.9: not by length", "?- abc, a, ab.", "abc a ab"),
    ("A1.9: the head before the body", "z :- a, b. ?- true.", "z a b"),
    ("A1.9: the goal line last", "z :- y. ?- x, y, z.", "z y x"),
    ("A1.9: conditions before alternatives", "c, b ---> a, d ; e. ?- true.", "c b a d e"),
    ("A1.9: a constraint in front of a clause", "b ---> a. c :- a, b. ?- c.", "b a c"),
    ("A1.9: the same for abducibles", "abd(b) ---> abd(a). c :- abd(a), abd(b). ?- c.", "b a c"),
    ("A1.9: a constraint between clauses", "a :- abd(d). abd(c) ---> b. b :- abd(e). ?- b.", "d c e a b"),
    ("A1.9: first mentions under naf", "z :- naf(y), x, naf(abd(w)), abd(v). ?- true.", "w v z y x"),
    ("A1.9: an atom in the goal only", "a. ?- b.", "a b"),
    ("A1.9: an abducible in the goal only", "a. ?- abd(b).", "b a"),
    ("A1.9: all atoms abducible", "abd(b) ---> abd(a) ; abd(c). ?- abd(a).", "b a c"),
    ("A1.9: no clause and no constraint", "?- a, naf(b), c.", "a b c"),
    ("A1.9: an empty goal", "a :- b. ?- true.", "a b"),
    ("A1.9: neither condition nor alternative", "true ---> false. ?- a.", "a"),
    ("A1.9: ten abducibles and ten others, one after the other", "".join(f"d{i} :- abd(a{9 - i}). " for i in range(10)) + "?- true.",
     "a9 a8 a7 a6 a5 a4 a3 a2 a1 a0 d0 d1 d2 d3 d4 d5 d6 d7 d8 d9"),
    ("A1.6: each kind keeps its order, names follow the text", "d. a ---> b. c. b ---> a. b :- c. true ---> e. ?- true.", "d a b c e"),
    ("A1.5: blanks inside abd( ) and naf( )", "?- abd(\n a\t), naf( b ), naf( abd( c ) ).", "a c b"),
    ("A1.2: no line ends but those of the names", "\r\n\r\n?- a\r\n,\r\nb\r\n.\r\n", "a b"),
]

KINDS = [(f"A1.5: the name {name}", f"?- {name}.", name) for name in (
    "truely", "true_", "falsey", "false0", "abd_", "abdx", "nafx", "naf9", "tru", "ab", "na", "xabd", "xtrue", "abdnaf")] + [
    (f"A1.1: the name {name}", f"?- {name}.", name) for name in ("a", "z", "aA", "a_", "a__", "a0", "x" * 30, "x" * 31, EVERY)] + [
    ("A1.5: abd(abd_), naf(nafx)", "?- abd(abd_), naf(nafx).", "abd_ nafx"),
    ("A1.5: truely, falsey beside true and false", "true ---> truely. falsey ---> false. ?- true.", "truely falsey"),
    ("A1.1: names that differ in a capital", "?- aB, ab.", "aB ab"),
    ("A1.1: names that differ in the last of 31 bytes", f"?- {'x' * 30}a, {'x' * 30}b.", f"{'x' * 30}a {'x' * 30}b"),
    ("A1.1: a name in front of another", "?- ab, a, abc.", "ab a abc"),
]

# Refused as the reader of texts does.
REFUSED = [
    ("A1.11: 50 by a missing goal line", "a. b :- a.", 50),
    ("A1.11: 50 by two goal lines", "?- a. ?- a.", 50),
    ("A1.11: 50 by text behind the goal line", "?- a. a.", 50),
    ("A1.11: 50 by no bytes", "", 50),
    ("A1.11: 50 by blanks only", "\n", 50),
    ("A1.11: 50 by abd (x)", "?- abd (x).", 50),
    ("A1.11: 50 by naf(naf(x))", "?- naf(naf(x)).", 50),
    ("A1.11: 50 by abd(abd(x))", "?- abd(abd(x)).", 50),
    ("A1.11: 50 by abd(naf(x))", "?- abd(naf(x)).", 50),
    ("A1.11: 50 by -->", "a --> b. ?- a.", 50),
    ("A1.11: 50 by ---->", "a ----> b. ?- a.", 50),
    ("A1.11: 50 by h :- true.", "h :- true. ?- h.", 50),
    ("A1.11: 50 by a goal of false", "a. ?- false.", 50),
    ("A1.11: 50 by ?- .", "a. ?- .", 50),
    ("A1.11: 50 by a name of 32 bytes", f"?- {'x' * 32}.", 50),
    ("A1.11: 50 by a capital", "?- Abc.", 50),
    ("A1.11: 50 by the name abd", "?- abd.", 50),
    ("A1.11: 50 by the name naf", "?- a, naf.", 50),
    ("A1.11: 50 by foo(a)", "?- foo(a).", 50),
    ("A1.11: 50 by a head with naf", "naf(a) :- b. ?- a.", 50),
    ("A1.11: 50 by a comment", "a. % a fact\n?- a.", 50),
    ("A1.11: 50 by NUL", "?- a.\0", 50),
    ("A1.11: 50 by VT", "a.\x0b?- a.", 50),
    ("A1.11: 50 by FF", "a.\x0c?- a.", 50),
    ("A1.11: 50 by a byte above 127", "?- a\xe4.", 50),
    ("A1.11: 50 before 51", "?- x, abd(x)", 50),
    ("A1.11: 51 in the goal", "?- x, abd(x).", 51),
    ("A1.11: 51 in head and body", "x :- abd(x). ?- x.", 51),
    ("A1.11: 51 in condition and alternative", "naf(abd(x)) ---> x. ?- true.", 51),
    ("A1.11: 51 in a head with abd and the goal", "abd(x) :- y. ?- x.", 51),
    ("A1.11: 51 before 7", "abd(y). ?- x, abd(x).", 51),
    ("A1.11: 51 before 9", "p :- p. ?- x, abd(x).", 51),
    ("A1.11: 5 by no atom", "?- true.", 5),
    ("A1.11: 5 by no atom, with a constraint", "true ---> false. ?- true.", 5),
    ("A1.11: 5 by a goal of 17", "?- " + "p, " * 16 + "p.", 5),
    ("A1.11: a goal of 16", "?- " + "p, " * 15 + "p.", "p"),
    ("A1.11: 5 before 7", "abd(h). ?- " + "p, " * 16 + "p.", 5),
    ("A1.11: 7 by a fact with abd", "abd(h). ?- b.", 7),
    ("A1.11: 7 by a head with abd", "abd(h) :- b. ?- b.", 7),
    ("A1.11: 7 before 9", "p :- p. abd(h) :- p. ?- p.", 7),
    ("A1.11: 9 by p from p", "p :- p. ?- p.", 9),
    ("A1.11: 9 by p from naf(p)", "p :- naf(p). ?- p.", 9),
    ("A1.11: 9 by a loop of two", "p :- q. q :- p. ?- a.", 9),
    ("A1.11: a constraint is no loop", "p ---> p. ?- p.", "p"),
]

# (name, text, answer), each with the greatest room.
LARGE = [
    ("A1.4: 256 names", facts(numbers(256)) + "?-true.", " ".join(f"x{i}" for i in range(256))),
    ("A1.4: 257 names", facts(numbers(257)) + "?-true.", 5),
    ("A1.4: 256 names, the last in the goal", facts(numbers(255)) + "?-y.", " ".join(f"x{i}" for i in range(255)) + " y"),
    ("A1.4: 64 abducibles behind 192 others", facts(numbers(192, "y")) + listed(marked(numbers(64))) + "--->false.?-true.",
     " ".join([f"x{i}" for i in range(64)] + [f"y{i}" for i in range(192)])),
    ("A1.4: 65 abducibles", listed(marked(numbers(65))) + "--->false.?-true.", 5),
    ("A1.4: 513 clauses", "p." * 513 + "?-p.", 5),
    ("A1.4: 512 clauses", "p." * 512 + "?-p.", "p"),
    ("A1.4: 7, before 129 constraints", "true--->false." * 129 + "abd(h).?-p.", 7),
    ("A1.4: 129 constraints", "true--->false." * 129 + "?-p.", 5),
    ("A1.4: a circle of 256 atoms", "".join(f"x{i}:-x{(i + 1) % 256}." for i in range(256)) + "?-x0.", 9),
    ("A1.4: the book with the longest image", LONGEST_BOOK, " ".join([f"a{i}" for i in range(64)] + [f"d{i}" for i in range(192)])),
    ("A1.8: 51 among 300 names", facts(numbers(300)) + "?-abd(x299).", 51),
    ("A1.8: 51 among 8,187 names", facts(short_names(8187)) + "?-abd(aaa).", 51),
    ("A1.8: 32,768 bytes", padded(SPIKE, LONGEST, 0), SPIKE_NAMES),
    ("A1.8: 32,769 bytes", padded(SPIKE, LONGEST + 1, 0), 50),
]

LONG_NAMES = [f"x{'_' * 27}{i:03}" for i in range(256)]  # 31 bytes each
LONG_FACTS = facts(LONG_NAMES) + "?-true."

# (name, text, room, answer).
ROOMS = [
    ("A1.11: room for just the names of P1", SPIKE, 29, SPIKE_NAMES),
    ("A1.11: room short by one for the names of P1", SPIKE, 28, 52),
    ("A1.11: room for the names of P1 and a byte", SPIKE, 30, SPIKE_NAMES),
    ("A1.11: room for the names but not for the image", SPIKE, 40, SPIKE_NAMES),
    ("A1.11: room without the last line end", "?- a.", 1, 52),
    ("A1.11: room for the smallest names", "?- a.", 2, "a"),
    ("A1.11: three bytes for the smallest names", "?- a.", 3, "a"),
    ("A1.11: no room for the smallest names", "?- a.", 0, 52),
    ("A1.11: no room for P1", SPIKE, 0, 52),
    ("A1.11: room for the image but not for the names", f"?- {'x' * 31}, abd({'y' * 31}).", 63, 52),
    ("A1.11: room for these names", f"?- {'x' * 31}, abd({'y' * 31}).", 64, f"{'y' * 31} {'x' * 31}"),
    ("A1.11: room for just 8,192 bytes of names", LONG_FACTS, 8192, " ".join(LONG_NAMES)),
    ("A1.11: room short by one for 8,192 bytes of names", LONG_FACTS, 8191, 52),
    ("A1.11: 8,192 bytes of names in the greatest room", LONG_FACTS, MOST, " ".join(LONG_NAMES)),
    ("A1.11: 50 before 52", "?- a", 0, 50),
    ("A1.11: 51 before 52", "?- a, abd(a).", 0, 51),
    ("A1.11: 5 before 52", "?- true.", 0, 5),
    ("A1.11: 7 before 52", "abd(a). ?- b.", 0, 7),
    ("A1.11: 9 before 52", "p :- p. ?- p.", 0, 9),
]


def table():
    for name, text, answer in ORDER + KINDS + REFUSED:
        yield name, text, ROOM, answer
    for name, text, answer in LARGE:
        yield name, text, MOST, answer
    yield from ROOMS


def full_line(answer):
    """The whole line of an answer."""
    if isinstance(answer, int):
        return f"refused {answer} room untouched"
    output = "".join(name + "\n" for name in answer.split()).encode()
    return f"written {len(output)} bytes {output.hex()} rest untouched"


def stored():
    """(name, packed case, line), each answer written by hand and met by the implementation."""
    for name, text, room, answer in table():
        typed = text.encode("latin-1")
        given = line_names(typed, room)
        assert given == full_line(answer), (name, given, full_line(answer))
        yield name, pack_names(typed, room), given
