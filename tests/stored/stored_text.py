"""Stored cases of operation 6, the reader of texts: (name, text, answer written by hand).

Written from the specification alone; shares no code with the engine.
An answer is the refusal's number, or the image: `fields` has its fields as hexadecimal digits, `book` says it in the notation of the
tests, where `abducible` and `defined` give the atoms their numbers. A name begins with the point of paper 02 that the case is about.
"""

from tests.implementation.answers import line_text, pack_text
from tests.implementation.notation import image as book
from tests.implementation.notation import raw
from tests.implementation.notation import rest as fields
from tests.implementation.reader import LONGEST_IMAGE

ROOM = 300  # enough for the image of every case without a room of its own
MOST = 10000  # the greatest room of a case
LONGEST = 32768

A = fields("0001 0000 0001 0000 0000 0000")  # ?- a.
MARKED = fields("0001 0001 0001 0000 0000 0000")  # ?- abd(a).
FACT = fields("0001 0000 0001 0000 0001 0002 0000 0000")  # a. ?- a.
RULE = fields("0002 0000 0001 0000 0001 0004 0000 0002 0000")  # a :- b. ?- a.
ARROW = fields("0002 0000 0000 0000 0001 0008 0001 0000 0001 0002")  # a ---> b. ?- true.

SPIKE = "spike :- abd(fish). spike :- abd(rock). spike :- abd(bubbles). abd(bubbles) ---> wake. ?- spike."
SPIKE_LINES = "spike :- abd(fish).\nspike :- abd(rock).\nspike :- abd(bubbles).\nabd(bubbles) ---> wake.\n?- spike.\n"
SPIKE_TIGHT = SPIKE.replace(" ", "")
SPIKE_WIDE = ("\r\n\t spike  :-\tabd(\nfish\r)  .\n\nspike:- abd( rock ) . spike :-\n\n\tabd(bubbles\n)\n.\r\nabd( bubbles)"
              "\t--->\t \twake .\n ?-\r\r\nspike\n.\n \t\r\n")
P1 = raw("01 00000028 0005 0003 0001 0006 0003 0004 0003 0000 0004 0003 0002 0004 0003 0004 "
         "0001 0008 0001 0004 0001 0008")

EXAMPLES = [
    ("A1.3: P1, the image that is printed", SPIKE, P1),
    ("A1.3: P1 in lines", SPIKE_LINES, P1),
    ("A1.2: P1 without a blank", SPIKE_TIGHT, P1),
    ("A1.2: P1 with blanks of every kind", SPIKE_WIDE, P1),
    ("A1.1: P5, rain brings clouds and none is seen",
     "wet :- abd(rain). wet :- abd(sprinkler). abd(rain) ---> abd(cloudy). abd(cloudy) ---> false. ?- wet.",
     book("abducible rain sprinkler cloudy; goal wet; wet <- rain; wet <- sprinkler; rain -> cloudy; cloudy ->")),
    ("A1.1: P6, example 6 of the article", "p :- naf(q). q :- naf(r). r :- abd(a). r :- abd(b). ?- p.",
     book("abducible a b; goal p; p <- -q; q <- -r; r <- a; r <- b")),
    ("A1.1: P8, one body inside another", "x :- abd(a), abd(b). x :- abd(a). ?- x.",
     book("abducible a b; x <- a b; x <- a; goal x")),
    ("A1.1: P9, both or neither", "x :- abd(a), abd(b). x :- naf(abd(a)), naf(abd(b)). ?- x.",
     book("abducible a b; x <- a b; x <- -a -b; goal x")),
    ("A1.1: P10, a constraint against the other", "p :- abd(a). p ---> false. true ---> abd(a). ?- true.",
     book("abducible a; p <- a; p ->; -> a")),
    ("A1.1: P11, campus unless ski", "campus :- naf(ski). ski :- abd(saturday), naf(abd(snow)). ?- campus.",
     book("abducible saturday snow; defined campus ski; goal campus; campus <- -ski; ski <- saturday -snow")),
]

# Every form of the grammar.
FORMS = [
    ("A1.1: a goal of one atom", "?- a.", A),
    ("A1.1: a goal of one abducible", "?- abd(a).", MARKED),
    ("A1.1: a goal of one negation", "?- naf(a).", fields("0001 0000 0001 0001 0000 0000")),
    ("A1.1: a goal of one negated abducible", "?- naf(abd(a)).", fields("0001 0001 0001 0001 0000 0000")),
    ("A1.1: a goal of two", "?- a, b.", fields("0002 0000 0002 0000 0002 0000 0000")),
    ("A1.1: a goal of all four kinds", "?- a, abd(b), naf(c), naf(abd(d)).",
     fields("0004 0002 0004 0004 0000 0007 0003 0000 0000")),
    ("A1.1: a goal literal twice", "?- a, a.", fields("0001 0000 0002 0000 0000 0000 0000")),
    ("A1.1: a goal and its opposite", "?- a, naf(a).", fields("0001 0000 0002 0000 0001 0000 0000")),
    ("A1.1: an empty goal behind a fact", "a. ?- true.", fields("0001 0000 0000 0001 0002 0000 0000")),
    ("A1.1: a fact", "a. ?- a.", FACT),
    ("A1.1: a fact twice", "a. a. ?- a.", fields("0001 0000 0001 0000 0002 0002 0000 0002 0000 0000")),
    ("A1.1: a clause of one literal", "a :- b. ?- a.", RULE),
    ("A1.1: a clause of one abducible", "a :- abd(b). ?- a.", fields("0002 0001 0001 0002 0001 0004 0001 0000 0000")),
    ("A1.1: a clause of one negation", "a :- naf(b). ?- a.", fields("0002 0000 0001 0000 0001 0004 0000 0003 0000")),
    ("A1.1: a clause of one negated abducible", "a :- naf(abd(b)). ?- a.",
     fields("0002 0001 0001 0002 0001 0004 0001 0001 0000")),
    ("A1.1: a clause of three literals", "a :- b, naf(c), abd(d). ?- a.", book("abducible d; goal a; a <- b -c d")),
    ("A1.1: a body literal twice", "a :- b, b. ?- a.", book("goal a; a <- b b")),
    ("A1.1: a body literal and its opposite", "a :- b, naf(b). ?- a.", book("goal a; a <- b -b")),
    ("A1.1: one condition, one alternative", "a ---> b. ?- true.", ARROW),
    ("A1.1: two conditions", "a, b ---> c. ?- true.", fields("0003 0000 0000 0000 0001 000a 0002 0000 0002 0001 0004")),
    ("A1.1: two alternatives", "a ---> b ; c. ?- true.",
     fields("0003 0000 0000 0000 0001 000c 0001 0000 0001 0002 0001 0004")),
    ("A1.1: an alternative of two", "a ---> b, c. ?- true.", fields("0003 0000 0000 0000 0001 000a 0001 0000 0002 0002 0004")),
    ("A1.1: a comma binds closer than a semicolon", "a ---> b, c ; d. ?- true.",
     fields("0004 0000 0000 0000 0001 000e 0001 0000 0002 0002 0004 0001 0006")),
    ("A1.1: and on the other side", "a ---> b ; c, d. ?- true.",
     fields("0004 0000 0000 0000 0001 000e 0001 0000 0001 0002 0002 0004 0006")),
    ("A1.1: the form of the request, c, c ---> d, d ; d.", "c, c ---> d, d ; d. ?- true.",
     fields("0002 0000 0000 0000 0001 0010 0002 0000 0000 0002 0002 0002 0001 0002")),
    ("A1.1: no alternative", "a ---> false. ?- true.", fields("0001 0000 0000 0000 0001 0004 0001 0000")),
    ("A1.1: two conditions, no alternative", "a, naf(b) ---> false. ?- true.",
     fields("0002 0000 0000 0000 0001 0006 0002 0000 0003")),
    ("A1.1: no condition", "true ---> a. ?- true.", fields("0001 0000 0000 0000 0001 0006 0000 0001 0000")),
    ("A1.1: no condition, two alternatives", "true ---> a ; naf(b). ?- true.",
     fields("0002 0000 0000 0000 0001 000a 0000 0001 0000 0001 0003")),
    ("A1.1: neither condition nor alternative", "true ---> false. ?- a.", fields("0001 0000 0001 0000 0000 0001 0002 0000")),
    ("A1.1: a negated condition", "naf(a) ---> b. ?- true.", fields("0002 0000 0000 0000 0001 0008 0001 0001 0001 0002")),
    ("A1.1: a negated condition first of two", "naf(a), b ---> c. ?- true.", book("-a b -> c")),
    ("A1.1: a negated abducible condition", "naf(abd(a)) ---> b. ?- true.", book("abducible a; -a -> b")),
    ("A1.1: an abducible condition alone", "abd(a) ---> false. ?- true.", book("abducible a; a ->")),
    ("A1.1: an abducible condition first of two", "abd(a), b ---> c. ?- true.", book("abducible a; a b -> c")),
    ("A1.1: negations on both sides", "naf(a), naf(abd(b)) ---> naf(c), naf(abd(d)) ; naf(a). ?- true.",
     book("abducible b d; defined a c; -a -b -> -c -d | -a")),
    ("A1.1: equal alternatives stay", "a ---> b ; b ; b. ?- true.", book("a -> b | b | b")),
    ("A1.1: equal constraints stay", "a ---> b. a ---> b. ?- true.", book("a -> b; a -> b")),
]

# Blanks: any run of the four, also none, between any two words and at both ends.
BLANKS = [
    ("A1.2: spaces round everything", " a :- b . ?- a . ", RULE),
    ("A1.2: tabs round everything", "\ta\t:-\tb\t.\t?-\ta\t.\t", RULE),
    ("A1.2: LF round everything", "\na\n:-\nb\n.\n?-\na\n.\n", RULE),
    ("A1.2: CR round everything", "\ra\r:-\rb\r.\r?-\ra\r.\r", RULE),
    ("A1.2: CR LF at line ends", "a :- b.\r\n?- a.\r\n", RULE),
    ("A1.2: LF CR at line ends", "a :- b.\n\r?- a.\n\r", RULE),
    ("A1.2: runs of blanks", " \t\r\n a \t\r\n :- \t\r\n b \t\r\n . \t\r\n ?- \t\r\n a \t\r\n . \t\r\n ", RULE),
    ("A1.2: no blank at all", "a:-b.?-a.", RULE),
    ("A1.2: no blank in a constraint", "a--->b.?-true.", ARROW),
    ("A1.2: a blank only before the arrow", "a --->b.?-true.", ARROW),
    ("A1.2: a blank only behind the arrow", "a---> b.?-true.", ARROW),
    ("A1.2: blanks only in front", "   \n?-a.", A),
    ("A1.2: blanks only behind", "?-a. \n\t\r", A),
    ("A1.2: no LF at the end", "a :- b.\n?- a.", RULE),
    ("A1.2: blanks round a comma", "?- a\n,\tb.", fields("0002 0000 0002 0000 0002 0000 0000")),
    ("A1.2: blanks round a semicolon", "true--->a\r;\nb.?-true.", book("-> a | b")),
    ("A1.2: a statement over several lines", "a\n  :- b\n   , c\n   .\n?- a.", book("goal a; a <- b c")),
    ("A1.2: two statements on a line", "a. b. ?- a.", book("goal a; a <-; b <-")),
    ("A1.2: an empty goal without blanks", "a.?-true.", fields("0001 0000 0000 0001 0002 0000 0000")),
    ("A1.2: an empty goal with blanks", "a . ?-\n true\t.", fields("0001 0000 0000 0001 0002 0000 0000")),
    ("A1.5: blanks inside abd( )", "?- abd( a ).", MARKED),
    ("A1.5: lines inside abd( )", "?- abd(\r\n\ta\n).", MARKED),
    ("A1.5: blanks inside naf( )", "?- naf( a ).", fields("0001 0000 0001 0001 0000 0000")),
    ("A1.5: blanks inside naf(abd( ))", "?- naf( abd( a ) ).", fields("0001 0001 0001 0001 0000 0000")),
    ("A1.5: abd (x)", "?- abd (a).", 50),
    ("A1.5: abd and ( on two lines", "?- abd\n(a).", 50),
    ("A1.5: naf (x)", "?- naf (a).", 50),
    ("A1.5: naf(abd (x))", "?- naf(abd (a)).", 50),
    ("A1.5: naf (abd(x))", "?- naf (abd(a)).", 50),
    ("A1.5: a blank in abd", "?- ab d(a).", 50),
    ("A1.5: a blank in naf", "?- n af(a).", 50),
    ("A1.5: a blank in true", "?- tr ue.", 50),
    ("A1.5: a blank in false", "a ---> fal se. ?- a.", 50),
    ("A1.5: a blank in a name", "?- a b.", 50),
    ("A1.5: a blank in :-", "a : - b. ?- a.", 50),
    ("A1.5: a blank in ?-", "? - a.", 50),
    ("A1.5: a line end in ?-", "?\n- a.", 50),
    ("A1.5: a blank behind the first - of --->", "a - --> b. ?- a.", 50),
    ("A1.5: a blank in the middle of --->", "a -- -> b. ?- a.", 50),
    ("A1.5: a blank before the > of --->", "a --- > b. ?- a.", 50),
]

SIGNS = [
    ("A1.5: -->", "a --> b. ?- true.", 50),
    ("A1.5: ---->", "a ----> b. ?- true.", 50),
    ("A1.5: ->", "a -> b. ?- true.", 50),
    ("A1.5: --->>", "a --->> b. ?- true.", 50),
    ("A1.5: ---> twice", "a ---> ---> b. ?- true.", 50),
    ("A1.5: ---->, without blanks", "a---->b.?-true.", 50),
    ("A1.5: -->, without blanks", "a-->b.?-true.", 50),
    ("A1.5: ---", "a --- b. ?- true.", 50),
    ("A1.5: >", "a > b. ?- true.", 50),
    ("A1.5: <---", "a <--- b. ?- true.", 50),
    ("A1.5: :- twice", "a :- :- b. ?- a.", 50),
    ("A1.5: ::-", "a ::- b. ?- a.", 50),
    ("A1.5: :--", "a :-- b. ?- a.", 50),
    ("A1.5: : alone", "a : b. ?- a.", 50),
    ("A1.5: - alone", "a - b. ?- a.", 50),
    ("A1.5: <-", "a <- b. ?- a.", 50),
    ("A1.5: :- before --->", "a :- ---> b. ?- a.", 50),
    ("A1.5: :- and ---> run together", "a :----> b. ?- a.", 50),
    ("A1.5: ?- and ---> run together", "?----> b.", 50),
    ("A1.5: ??-", "a. ??- a.", 50),
    ("A1.5: ?--", "a. ?-- a.", 50),
    ("A1.5: ? alone", "a. ? a.", 50),
    ("A1.5: a body behind both :- and --->", "a :- b ---> c. ?- a.", 50),
    ("A1.5: two :-", "a :- b :- c. ?- a.", 50),
    ("A1.5: two --->", "a ---> b ---> c. ?- a.", 50),
]

# Names: a small letter and up to 30 more letters, digits or underscores; a word is taken as long as it goes.
EVERY = "aZ09_abcdefghijklmnopqrstuvwxyz"  # 31 bytes
NAMES = [(f"A1.5: the name {name}", f"?- {name}.", A) for name in (
    "truely", "true_", "true1", "trueE", "falsey", "false_", "false0", "abd_", "abdx", "abd1", "abdA", "abdabd", "nafx", "naf_", "naf9",
    "nafZ", "nafnaf", "tru", "fals", "ab", "na", "xabd", "xnaf", "xtrue", "xfalse", "truefalse", "abdnaf")] + [
    (f"A1.1: the name {name}", f"?- {name}.", A) for name in (
        "a", "z", "a0", "a9", "aA", "aZ", "a_", "a__", "a_1", "aBC", "x" * 30, "x" * 31, EVERY, "z" + "9" * 30, "z" + "_" * 30)] + [
    (f"A1.5: abd({name})", f"?- abd({name}).", MARKED) for name in ("abd_", "nafx", "truely", "falsey", "abdabd", "x" * 31)] + [
    (f"A1.5: naf({name})", f"?- naf({name}).", fields("0001 0000 0001 0001 0000 0000")) for name in ("naf_", "abdx", "truely", EVERY)] + [
    (f"A1.7: the name {name}", f"?- {name}.", 50) for name in (
        "x" * 32, "x" * 33, "x" * 62, "x" * 256, "A", "Z", "Abc", "_", "_a", "0", "9a", "1", "True", "TRUE", "ABD", "abd", "naf", "aé",
        "a-b", "a.b", "a'", "a$", "'a'", "\"a\"", "a@", "a[", "a`", "a{", "@a", "[a", "`a", "{a", "a/", "/a", "a\\", "a#", "a+b", "a=b", "~a", "!a",
        "a|b", "a&b", "a*")] + [
    (f"A1.7: the head {name}", f"{name} :- b. ?- b.", 50) for name in ("x" * 32, "A", "_", "0", "true", "false", "abd", "naf")] + [
    (f"A1.7: abd({name})", f"?- abd({name}).", 50) for name in ("x" * 32, "A", "_a", "0", "true", "false", "abd", "naf", "")] + [
    (f"A1.7: naf({name})", f"?- naf({name}).", 50) for name in ("x" * 32, "A", "_a", "0", "true", "false", "abd", "naf", "")] + [
    ("A1.1: names that differ in the last of 31 bytes", f"?- {'x' * 30}a, {'x' * 30}b.", fields("0002 0000 0002 0000 0002 0000 0000")),
    ("A1.1: names that differ in a capital", "?- aB, ab.", fields("0002 0000 0002 0000 0002 0000 0000")),
    ("A1.1: a name in front of another", "?- ab, a, abc.", fields("0003 0000 0003 0000 0002 0004 0000 0000")),
    ("A1.1: names that differ in the first byte", "?- ba, aa.", fields("0002 0000 0002 0000 0002 0000 0000")),
    ("A1.5: true and truely", "true ---> truely. ?- truely.", book("goal t; -> t")),
    ("A1.5: false and falsey", "falsey ---> false. ?- falsey.", book("goal f; f ->")),
    ("A1.5: truely as a goal is no empty goal", "?- truely.", A),
    ("A1.5: falsey as an alternative", "a ---> falsey. ?- true.", ARROW),
    ("A1.5: abd_ as a head", "abd_ :- nafx. ?- abd_.", RULE),
    ("A1.5: abdx(a)", "?- abdx(a).", 50),
    ("A1.5: nafx(a)", "?- nafx(a).", 50),
    ("A1.5: xabd(a)", "?- xabd(a).", 50),
    ("A1.5: xnaf(a)", "?- xnaf(a).", 50),
    ("A1.5: 1abd(a)", "?- 1abd(a).", 50),
    ("A1.5: ABD(a)", "?- ABD(a).", 50),
    ("A1.5: Naf(a)", "?- Naf(a).", 50),
    ("A1.5: abd_(a)", "?- abd_(a).", 50),
]

# Mixed statements, no lines, no comments, no other bytes.
MIXED = [
    ("A1.6: a constraint between clauses", "a. b ---> a. c :- b. ?- c.", book("defined a b c; goal c; a <-; c <- b; b -> a")),
    ("A1.6: a clause between constraints", "a ---> b. c. b ---> a. ?- c.", book("defined a b c; goal c; c <-; a -> b; b -> a")),
    ("A1.6: constraints before all clauses", "a ---> false. true ---> b. b :- c. a. ?- a.",
     book("defined a b c; goal a; b <- c; a <-; a ->; -> b")),
    ("A1.6: each kind keeps its order", "d. a ---> b. c. b ---> a. b :- c. true ---> d. ?- true.",
     book("defined d a b c; d <-; c <-; b <- c; a -> b; b -> a; -> d")),
    ("A1.6: constraints only", "a ---> b. b ---> a. ?- true.", book("a -> b; b -> a")),
    ("A1.6: clauses only", "a :- b. b. ?- true.", book("a <- b; b <-")),
    ("A1.6: a comment with %", "a. % a fact\n?- a.", 50),
    ("A1.6: a comment with #", "# a fact\na. ?- a.", 50),
    ("A1.6: a comment with /* */", "a. /* a fact */ ?- a.", 50),
    ("A1.6: a comment with --", "a. -- a fact\n?- a.", 50),
    ("A1.6: VT between words", "a.\x0b?- a.", 50),
    ("A1.6: FF between words", "a.\x0c?- a.", 50),
    ("A1.6: NUL between words", "a.\0?- a.", 50),
    ("A1.6: NUL at the end", "?- a.\0", 50),
    ("A1.6: NUL in front", "\0?- a.", 50),
    ("A1.6: NUL in a name", "?- a\0b.", 50),
    ("A1.6: VT at the end", "?- a.\x0b", 50),
    ("A1.6: FF in front", "\x0c?- a.", 50),
    ("A1.6: byte 127", "?- a.\x7f", 50),
    ("A1.6: byte 128 at the end", "?- a.\x80", 50),
    ("A1.6: byte 255 in front", "\xff?- a.", 50),
    ("A1.6: byte 160, a blank elsewhere", "?-\xa0a.", 50),
    ("A1.6: byte 133, a line end elsewhere", "a.\x85?- a.", 50),
    ("A1.6: a byte order mark", "\xef\xbb\xbf?- a.", 50),
    ("A1.6: a letter above 127 in a name", "?- a\xe4b.", 50),
    ("A1.6: a minus sign above 127", "?\xe2\x88\x92 a.", 50),
    ("A1.6: byte 97 + 128", "?- \xe1.", 50),
    ("A1.6: byte 32 + 128", "\xa0?- a.", 50),
    ("A1.6: backspace", "?- a\x08.", 50),
    ("A1.6: byte 31", "?-\x1fa.", 50),
    ("A1.6: byte 28, a blank elsewhere", "a.\x1c?- a.", 50),
    ("A1.6: byte 26 at the end", "?- a.\x1a", 50),
]

MALFORMED = [
    ("A1.7: no bytes", "", 50),
    ("A1.7: blanks only", " \t\r\n", 50),
    ("A1.7: no goal line", "a. b :- a.", 50),
    ("A1.7: no goal line, constraints only", "a ---> b.", 50),
    ("A1.7: two goal lines", "?- a. ?- a.", 50),
    ("A1.7: two goal lines, with a clause between", "?- a. a. ?- a.", 50),
    ("A1.7: two empty goal lines", "a. ?- true. ?- true.", 50),
    ("A1.7: a clause behind the goal line", "?- a. a.", 50),
    ("A1.7: a constraint behind the goal line", "?- a. a ---> b.", 50),
    ("A1.7: a name behind the goal line", "?- a. b", 50),
    ("A1.7: a full stop behind the goal line", "?- a..", 50),
    ("A1.7: a comma behind the goal line", "?- a.,", 50),
    ("A1.7: the goal line without its full stop", "?- a", 50),
    ("A1.7: an empty goal without its full stop", "a. ?- true", 50),
    ("A1.7: a goal line that is ?- alone", "a. ?-", 50),
    ("A1.7: ?- .", "?- .", 50),
    ("A1.7: ?-.", "a. ?-.", 50),
    ("A1.7: h :- .", "h :- . ?- h.", 50),
    ("A1.7:  ---> d.", " ---> d. ?- d.", 50),
    ("A1.7: c ---> .", "c ---> . ?- c.", 50),
    ("A1.7: ---> alone", "---> . ?- c.", 50),
    ("A1.7: :- b.", ":- b. ?- b.", 50),
    ("A1.7: a full stop alone", ". ?- a.", 50),
    ("A1.7: two full stops", "a.. ?- a.", 50),
    ("A1.7: a clause without its full stop", "a :- b ?- a.", 50),
    ("A1.7: a fact without its full stop", "a ?- a.", 50),
    ("A1.7: a constraint without its full stop", "a ---> b ?- a.", 50),
    ("A1.7: facts without a full stop between", "a b. ?- a.", 50),
    ("A1.7: h :- true.", "h :- true. ?- h.", 50),
    ("A1.7: h :- false.", "h :- false. ?- h.", 50),
    ("A1.7: h :- true, b.", "h :- true, b. ?- h.", 50),
    ("A1.7: h :- b, true.", "h :- b, true. ?- h.", 50),
    ("A1.7: true as a fact", "true. ?- a.", 50),
    ("A1.7: false as a fact", "false. ?- a.", 50),
    ("A1.7: true as a head", "true :- a. ?- a.", 50),
    ("A1.7: false as a head", "false :- a. ?- a.", 50),
    ("A1.7: true before another condition", "true, a ---> b. ?- a.", 50),
    ("A1.7: true behind another condition", "a, true ---> b. ?- a.", 50),
    ("A1.7: true twice as condition", "true, true ---> b. ?- b.", 50),
    ("A1.7: false as a condition", "false ---> b. ?- b.", 50),
    ("A1.7: false beside a condition", "a, false ---> b. ?- b.", 50),
    ("A1.7: true as an alternative", "a ---> true. ?- a.", 50),
    ("A1.7: true as second alternative", "a ---> b ; true. ?- a.", 50),
    ("A1.7: false before another alternative", "a ---> false ; b. ?- a.", 50),
    ("A1.7: false behind another alternative", "a ---> b ; false. ?- a.", 50),
    ("A1.7: false twice as alternative", "a ---> false ; false. ?- a.", 50),
    ("A1.7: false with a comma behind it", "a ---> false, b. ?- a.", 50),
    ("A1.7: false with a comma before it", "a ---> b, false. ?- a.", 50),
    ("A1.7: a goal of false", "a. ?- false.", 50),
    ("A1.7: a goal of true and another", "?- true, a.", 50),
    ("A1.7: a goal of another and true", "?- a, true.", 50),
    ("A1.7: a goal of true twice", "a. ?- true, true.", 50),
    ("A1.7: naf(true) as condition", "naf(true) ---> a. ?- a.", 50),
    ("A1.7: naf(false) as alternative", "a ---> naf(false). ?- a.", 50),
    ("A1.7: abd(true) as condition", "abd(true) ---> a. ?- a.", 50),
    ("A1.7: abd(false) as alternative", "a ---> abd(false). ?- a.", 50),
    ("A1.7: true(a)", "?- true(a).", 50),
    ("A1.7: true()", "a. ?- true().", 50),
    ("A1.7: naf(naf(x))", "?- naf(naf(x)).", 50),
    ("A1.7: naf(naf(abd(x)))", "?- naf(naf(abd(x))).", 50),
    ("A1.7: abd(abd(x))", "?- abd(abd(x)).", 50),
    ("A1.7: naf(abd(abd(x)))", "?- naf(abd(abd(x))).", 50),
    ("A1.7: abd(naf(x))", "?- abd(naf(x)).", 50),
    ("A1.7: a fact with naf", "naf(h). ?- h.", 50),
    ("A1.7: a head with naf", "naf(h) :- b. ?- b.", 50),
    ("A1.7: a head with naf(abd( ))", "naf(abd(h)) :- b. ?- b.", 50),
    ("A1.7: abd alone as a literal", "a :- abd. ?- a.", 50),
    ("A1.7: naf alone as a literal", "a :- naf. ?- a.", 50),
    ("A1.7: abd alone as a fact", "abd. ?- a.", 50),
    ("A1.7: naf alone as a condition", "naf ---> a. ?- a.", 50),
    ("A1.7: abd( alone", "?- abd(.", 50),
    ("A1.7: naf( alone", "?- naf(.", 50),
    ("A1.7: abd() in a body", "a :- abd(). ?- a.", 50),
    ("A1.7: naf(abd())", "?- naf(abd()).", 50),
    ("A1.7: foo(a)", "?- foo(a).", 50),
    ("A1.7: foo(a) as a head", "foo(a) :- b. ?- b.", 50),
    ("A1.7: (a)", "?- (a).", 50),
    ("A1.7: ((a, b))", "?- (a, b).", 50),
    ("A1.7: naf(a, b)", "?- naf(a, b).", 50),
    ("A1.7: abd(a, b)", "?- abd(a, b).", 50),
    ("A1.7: naf(a ; b)", "a ---> naf(a ; b). ?- a.", 50),
    ("A1.7: naf(a", "?- naf(a.", 50),
    ("A1.7: abd(a", "?- abd(a.", 50),
    ("A1.7: naf(abd(a)", "?- naf(abd(a).", 50),
    ("A1.7: abd(a))", "?- abd(a)).", 50),
    ("A1.7: naf(abd(a)))", "?- naf(abd(a))).", 50),
    ("A1.7: a)", "?- a).", 50),
    ("A1.7: abd(a) b", "?- abd(a) b.", 50),
    ("A1.7: abd(a b)", "?- abd(a b).", 50),
    ("A1.7: not a", "?- not a.", 50),
    ("A1.7: naf a", "?- naf a.", 50),
    ("A1.7: a comma first in a body", "a :- , b. ?- a.", 50),
    ("A1.7: a comma last in a body", "a :- b, . ?- a.", 50),
    ("A1.7: two commas in a body", "a :- b,, c. ?- a.", 50),
    ("A1.7: a comma first in a goal", "?- , a.", 50),
    ("A1.7: a comma last in a goal", "?- a, .", 50),
    ("A1.7: a comma before the arrow", "a, ---> b. ?- a.", 50),
    ("A1.7: a comma behind the arrow", "a ---> , b. ?- a.", 50),
    ("A1.7: a comma before a semicolon", "a ---> b, ; c. ?- a.", 50),
    ("A1.7: a semicolon first", "a ---> ; b. ?- a.", 50),
    ("A1.7: a semicolon last", "a ---> b ; . ?- a.", 50),
    ("A1.7: two semicolons", "a ---> b ;; c. ?- a.", 50),
    ("A1.7: a semicolon in a body", "a :- b ; c. ?- a.", 50),
    ("A1.7: a semicolon in a goal", "?- a ; b.", 50),
    ("A1.7: a semicolon among conditions", "a ; b ---> c. ?- a.", 50),
    ("A1.7: a semicolon among heads", "a ; b :- c. ?- a.", 50),
    ("A1.7: two heads", "a, b :- c. ?- a.", 50),
    ("A1.7: two facts with a comma", "a, b. ?- a.", 50),
    ("A1.7: a semicolon in place of the full stop", "a :- b; ?- a.", 50),
    ("A1.7: a comma in place of the full stop", "a :- b, ?- a.", 50),
    ("A1.7: a goal in a clause", "a :- ?- b.", 50),
    ("A1.7: a goal line with :-", "?- a :- b.", 50),
    ("A1.7: a goal line with --->", "?- a ---> b.", 50),
    ("A1.7: an empty goal with --->", "?- true ---> b.", 50),
    ("A1.7: the fault only in the last byte", SPIKE[:-1] + ",", 50),
    ("A1.7: the fault only in the first byte", ";" + SPIKE, 50),
    ("A1.7: P1 without its last byte", SPIKE[:-1], 50),
    ("A1.7: P1 twice", SPIKE + SPIKE, 50),
]

# A name with and without abd; 50 before 51, and 51 before all others.
BOTH_WAYS = [
    ("A1.8: x in the goal both ways", "?- x, abd(x).", 51),
    ("A1.8: x in the goal both ways, abd first", "?- abd(x), x.", 51),
    ("A1.8: x and naf(abd(x))", "?- x, naf(abd(x)).", 51),
    ("A1.8: naf(x) and abd(x)", "?- naf(x), abd(x).", 51),
    ("A1.8: naf(x) and naf(abd(x))", "?- naf(x), naf(abd(x)).", 51),
    ("A1.8: a head and its own body", "x :- abd(x). ?- x.", 51),
    ("A1.8: a head with abd and its own body", "abd(x) :- x. ?- y.", 51),
    ("A1.8: abd(x) :- y. with an x elsewhere", "abd(x) :- y. ?- x.", 51),
    ("A1.8: abd(x) :- y. with an x before it", "z :- x. abd(x) :- y. ?- z.", 51),
    ("A1.8: two heads", "abd(x). x. ?- y.", 51),
    ("A1.8: a body and a body", "a :- x. a :- abd(x). ?- a.", 51),
    ("A1.8: inside one body", "a :- x, b, naf(abd(x)). ?- a.", 51),
    ("A1.8: condition and condition", "x, abd(x) ---> false. ?- true.", 51),
    ("A1.8: condition and alternative", "abd(x) ---> x. ?- true.", 51),
    ("A1.8: alternative and alternative", "true ---> x ; abd(x). ?- true.", 51),
    ("A1.8: inside one alternative", "true ---> x, abd(x). ?- true.", 51),
    ("A1.8: constraint and constraint", "x ---> false. abd(x) ---> false. ?- true.", 51),
    ("A1.8: constraint and clause", "x ---> false. a :- abd(x). ?- true.", 51),
    ("A1.8: clause and goal", "a :- abd(x). ?- a, x.", 51),
    ("A1.8: constraint and goal", "true ---> abd(x). ?- naf(x).", 51),
    ("A1.8: first and last mention", "abd(x) ---> a. b :- a. c :- b. d :- c. e, d ---> c ; b. ?- a, b, c, d, e, x.", 51),
    ("A1.8: the one of 31 bytes", f"?- {'x' * 31}, abd({'x' * 31}).", 51),
    ("A1.8: two names both ways", "?- x, abd(x), y, abd(y).", 51),
    ("A1.8: one of many", "?- abd(a), abd(b), abd(c), abd(d), e, f, g, naf(h), b.", 51),
    ("A1.8: names alike but for a letter are two", "?- x, abd(xx).", fields("0002 0001 0002 0002 0000 0000 0000")),
    ("A1.8: names alike but for a capital are two", "?- xX, abd(xx).", fields("0002 0001 0002 0002 0000 0000 0000")),
    ("A1.8: names alike but for the last of 31 bytes are two", f"?- {'x' * 30}y, abd({'x' * 31}).",
     fields("0002 0001 0002 0002 0000 0000 0000")),
    ("A1.8: 50 behind a 51", "?- x, abd(x). b", 50),
    ("A1.8: 50 before a 51", ", ?- x, abd(x).", 50),
    ("A1.8: 50 between the two of a 51", "a :- x. b :- true. ?- abd(x).", 50),
    ("A1.8: 50 by a missing goal line, with a 51", "x :- abd(x).", 50),
    ("A1.8: 50 by NUL at the end, with a 51", "?- x, abd(x).\0", 50),
    ("A1.8: 51 before 5 by the goal", "?- " + "x, " * 16 + "abd(x).", 51),
    ("A1.8: 51 before 7", "abd(y) :- z. ?- x, abd(x).", 51),
    ("A1.8: 51 before 9", "p :- p. ?- x, abd(x).", 51),
    ("A1.8: 51 before 9, on the loop", "p :- naf(p). ?- abd(p).", 51),
]

# Numbers by first appearance: the abducibles, then the others.
ORDER = [
    ("A1.9: abducibles before the others", "?- a, abd(b), c, abd(d).", fields("0004 0002 0004 0004 0000 0006 0002 0000 0000")),
    ("A1.9: not by the alphabet", "?- c, a, b.", fields("0003 0000 0003 0000 0002 0004 0000 0000")),
    ("A1.9: abducibles not by the alphabet", "?- abd(c), abd(a), abd(b).", fields("0003 0003 0003 0000 0002 0004 0000 0000")),
    ("A1.9: the head before the body", "z :- a, b. ?- true.", fields("0003 0000 0000 0001 0006 0000 0002 0004 0000")),
    ("A1.9: the goal line last", "z :- y. ?- x, y, z.", fields("0003 0000 0003 0004 0002 0000 0001 0004 0000 0002 0000")),
    ("A1.9: conditions before alternatives", "c, b ---> a, d ; e. ?- true.",
     fields("0005 0000 0000 0000 0001 0010 0002 0000 0002 0002 0004 0006 0001 0008")),
    ("A1.9: a constraint in front of a clause has the first numbers", "b ---> a. c :- a, b. ?- c.",
     fields("0003 0000 0001 0004 0001 0006 0002 0002 0000 0001 0008 0001 0000 0001 0002")),
    ("A1.9: the same for abducibles", "abd(b) ---> abd(a). c :- abd(a), abd(b). ?- c.",
     fields("0003 0002 0001 0004 0001 0006 0002 0002 0000 0001 0008 0001 0000 0001 0002")),
    ("A1.9: a constraint between clauses", "a :- abd(d). abd(c) ---> b. b :- abd(e). ?- b.",
     book("abducible d c e; defined a b; goal b; a <- d; b <- e; c -> b")),
    ("A1.9: a first mention under naf", "z :- naf(y), x. ?- true.", book("z <- -y x")),
    ("A1.9: a first abducible under naf", "z :- naf(abd(y)), abd(x). ?- true.", book("abducible y x; z <- -y x")),
    ("A1.9: a mention again changes nothing", "a :- b, a2, b. a2 :- b. c :- a, a2. ?- c, b.",
     book("defined a b a2 c; goal c b; a <- b a2 b; a2 <- b; c <- a a2")),
    ("A1.9: an atom in the goal only", "a. ?- b.", fields("0002 0000 0001 0002 0001 0002 0000 0000")),
    ("A1.9: an abducible in the goal only", "a. ?- abd(b).", fields("0002 0001 0001 0000 0001 0002 0001 0000")),
    ("A1.9: all atoms abducible", "abd(b) ---> abd(a) ; abd(c). ?- abd(a).",
     fields("0003 0003 0001 0002 0000 0001 000c 0001 0000 0001 0002 0001 0004")),
    ("A1.9: a head with abd counts towards B", "abd(x). ?- true.", 7),
    ("A1.9: ten abducibles and ten others, one after the other",
     "".join(f"d{i} :- abd(a{9 - i}). " for i in range(10)) + "?- true.",
     book("abducible " + " ".join(f"a{9 - i}" for i in range(10)) + "; " + "; ".join(f"d{i} <- a{9 - i}" for i in range(10)))),
]

# 5, 7, 9 on the image that would be written.
WALK = [
    ("A1.10: ?- true. alone", "?- true.", 5),
    ("A1.10: ?- true. with blanks", "\n?-\n true .\n", 5),
    ("A1.10: no atom, but a constraint", "true ---> false. ?- true.", 5),
    ("A1.10: no atom, two constraints", "true ---> false. true ---> false. ?- true.", 5),
    ("A1.3: a fact with abd", "abd(h). ?- b.", 7),
    ("A1.3: a head with abd", "abd(h) :- b. ?- b.", 7),
    ("A1.3: a head with abd, in the second clause", "b. abd(h) :- b. ?- b.", 7),
    ("A1.3: a head with abd, with blanks inside", "abd( h\n) :- b. ?- b.", 7),
    ("A1.3: a head with abd on itself", "abd(h) :- abd(h). ?- b.", 7),
    ("A1.3: a condition with abd is no head", "abd(h) ---> b. ?- b.", book("abducible h; goal b; h -> b")),
    ("A1.10: p from p", "p :- p. ?- p.", 9),
    ("A1.10: p from naf(p)", "p :- naf(p). ?- p.", 9),
    ("A1.10: p from q from p", "p :- q. q :- p. ?- p.", 9),
    ("A1.10: a loop of three through a negation", "p :- a, q. q :- naf(r). r :- b, p. ?- a.", 9),
    ("A1.10: a loop that the goal does not lead to", "p :- p. a. ?- a.", 9),
    ("A1.10: a loop beside a fact", "p. p :- p. ?- p.", 9),
    ("A1.10: a loop in the last literal", "p :- a, b, c, p. ?- a.", 9),
    ("A1.10: no loop through a constraint", "p :- q. p ---> q. q ---> p. ?- p.", book("defined p q; goal p; p <- q; p -> q; q -> p")),
    ("A1.10: a constraint from p to p is no loop", "p ---> p. ?- p.", book("goal p; p -> p")),
    ("A1.10: a shared atom is no loop", "p :- q, r. q :- s. r :- s. ?- p.", book("defined p q r s; goal p; p <- q r; q <- s; r <- s")),
    ("A1.10: 7 before 9, the loop first", "p :- p. abd(h) :- p. ?- p.", 7),
    ("A1.10: 7 before 9, the loop last", "abd(h) :- p. p :- p. ?- p.", 7),
    ("A1.10: 5 before 9, by the goal", "p :- p. ?- " + "p, " * 16 + "p.", 5),
    ("A1.10: 5 before 7, by the goal", "abd(h). ?- " + "p, " * 16 + "p.", 5),
    ("A1.4: a goal of 16", "?- " + "p, " * 15 + "p.", fields("0001 0000 0010 " + "0000 " * 16 + "0000 0000")),
    ("A1.4: a goal of 17", "?- " + "p, " * 16 + "p.", 5),
]


def listed(names, sign=","):
    return sign.join(names)


def numbers(count, letter="x"):
    return [f"{letter}{i}" for i in range(count)]


def marked(names):
    return [f"abd({name})" for name in names]


def facts(names):
    return "".join(f"{name}." for name in names)


def padded(text, length, place=None):
    """The text with spaces put in at a place, its end if none is given, up to this length."""
    place = len(text) if place is None else place
    return text[:place] + " " * (length - len(text)) + text[place:]


def digits(values):
    return "".join(f"{value:04x}" for value in values)


def short_names(count):
    """So many different names of three bytes."""
    small = "abcdefghijklmnopqrstuvwxyz"
    found = [a + b + c for a in small for b in small for c in small if a + b + c not in ("abd", "naf")]
    return found[:count]


FULL_CONSTRAINT = "true--->" + listed(["p"] * 1024, ";") + "."
FULL_BODY = "q:-" + listed(["p"] * 1024) + "."

# (name, text, answer), each with the greatest room.
LIMITS = [
    ("A1.4: 256 names", facts(numbers(256)) + "?-true.",
     fields("0100 0000 0000 0100" + "".join(f"0002{i:04x}" for i in range(256)) + "0000")),
    ("A1.4: 257 names", facts(numbers(257)) + "?-true.", 5),
    ("A1.4: 256 names, the last in the goal", facts(numbers(255)) + "?-y.",
     fields("0100 0000 0001 01fe 00ff" + "".join(f"0002{i:04x}" for i in range(255)) + "0000")),
    ("A1.4: 257 names, the last in the goal", facts(numbers(256)) + "?-y.", 5),
    ("A1.4: 256 names, 64 of them abducible", listed(marked(numbers(64))) + "--->false." + facts(numbers(192, "y")) + "?-true.",
     fields("0100 0040 0000 00c0" + "".join(f"0002{64 + i:04x}" for i in range(192)) + "0001 0082 0040" + digits(range(0, 128, 2)))),
    ("A1.4: 64 abducibles", listed(marked(numbers(64))) + "--->false.?-true.",
     fields("0040 0040 0000 0000 0001 0082 0040" + digits(range(0, 128, 2)))),
    ("A1.4: 65 abducibles", listed(marked(numbers(65))) + "--->false.?-true.", 5),
    ("A1.4: 65 abducibles, the last in the goal", listed(marked(numbers(64))) + "--->false.?-abd(y).", 5),
    ("A1.9: 65 abducibles, one of them a head: 5 at B before 7", listed(marked(numbers(64))) + "--->false.abd(y).?-true.", 5),
    ("A1.9: 64 abducibles, one of them a head", listed(marked(numbers(63))) + "--->false.abd(y).?-true.", 7),
    ("A1.4: 512 clauses", "p." * 512 + "?-p.", fields("0001 0000 0001 0000 0200" + "0002 0000" * 512 + "0000")),
    ("A1.4: 513 clauses", "p." * 513 + "?-p.", 5),
    ("A1.4: 1,024 body literals in one clause", FULL_BODY + "?-q.",
     fields("0002 0000 0001 0000 0001 0802 0000" + "0002" * 1024 + "0000")),
    ("A1.4: 1,025 body literals in one clause", "q:-" + listed(["p"] * 1025) + ".?-q.", 5),
    ("A1.4: 1,024 body literals and a fact", FULL_BODY + "q.?-q.",
     fields("0002 0000 0001 0000 0002 0802 0000" + "0002" * 1024 + "0002 0000 0000")),
    ("A1.4: 1,025 body literals in two clauses", FULL_BODY + "q:-p.?-q.", 5),
    ("A1.4: 1,024 body literals in 512 clauses", "q:-p,p." * 512 + "?-q.",
     fields("0002 0000 0001 0000 0200" + "0006 0000 0002 0002" * 512 + "0000")),
    ("A1.4: 128 constraints", "true--->false." * 128 + "?-p.", fields("0001 0000 0001 0000 0000 0080" + "0002 0000" * 128)),
    ("A1.4: 129 constraints", "true--->false." * 129 + "?-p.", 5),
    ("A1.4: 1,024 conditions", listed(["p"] * 1024) + "--->false.?-true.",
     fields("0001 0000 0000 0000 0001 0802 0400" + "0000" * 1024)),
    ("A1.4: 1,025 conditions", listed(["p"] * 1025) + "--->false.?-true.", 5),
    ("A1.4: 1,024 alternatives", FULL_CONSTRAINT + "?-true.",
     fields("0001 0000 0000 0000 0001 1002 0000" + "0001 0000" * 1024)),
    ("A1.4: 1,025 alternatives", "true--->" + listed(["p"] * 1025, ";") + ".?-true.", 5),
    ("A1.4: an alternative of 1,024", "true--->" + listed(["p"] * 1024) + ".?-true.",
     fields("0001 0000 0000 0000 0001 0804 0000 0400" + "0000" * 1024)),
    ("A1.4: an alternative of 1,025", "true--->" + listed(["p"] * 1025) + ".?-true.", 5),
    ("A1.4: 1,024 literals in both parts of constraints", "p,p--->p,p;p,naf(p),p,p." * 128 + "?-true.",
     fields("0001 0000 0000 0000 0080" + "0016 0002 0000 0000 0002 0000 0000 0004 0000 0001 0000 0000" * 128)),
    ("A1.4: one literal more in the last constraint", "p,p--->p,p;p,naf(p),p,p." * 127 + "p,p--->p,p;p,naf(p),p,p,p.?-true.", 5),
    ("A1.4: 5 at 257 names, before 7", "abd(h)." + facts(numbers(256)) + "?-true.", 5),
    ("A1.4: 5 at 513 clauses, before the first one's 7", "abd(h)." + "p." * 512 + "?-p.", 5),
    ("A1.4: 5 at the body total, before 7 at the same clause", "abd(h):-" + listed(["p"] * 1025) + ".?-p.", 5),
    ("A1.4: 5 at the body total, before 7 at a later clause", FULL_BODY + "q:-p.abd(h).?-p.", 5),
    ("A1.4: 7, before the body total of a later clause", "abd(h)." + FULL_BODY + "q:-p.?-p.", 7),
    ("A1.4: 7 at a clause with a full total", FULL_BODY + "abd(h).?-p.", 7),
    ("A1.4: 7, before 129 constraints", "abd(h)." + "true--->false." * 129 + "?-p.", 7),
    ("A1.4: 7, before 129 constraints that stand in front in the text", "true--->false." * 129 + "abd(h).?-p.", 7),
    ("A1.4: 7, before the literals of a constraint in front in the text", "p--->p." + FULL_CONSTRAINT + "abd(h).?-p.", 7),
    ("A1.4: 5 by 129 constraints, before 9", "p:-p." + "true--->false." * 129 + "?-p.", 5),
    ("A1.4: 5 by the literals of constraints, before 9", "p:-p." + FULL_CONSTRAINT + "p--->false.?-p.", 5),
    ("A1.4: 9 with every limit kept", "p:-p." + "p." * 511 + FULL_CONSTRAINT + "?-p.", 9),
    ("A1.4: a chain of 256 atoms", "".join(f"x{i}:-x{i + 1}." for i in range(255)) + "?-x0.",
     fields("0100 0000 0001 0000 00ff" + "".join(f"0004{i:04x}{2 * i + 2:04x}" for i in range(255)) + "0000")),
    ("A1.4: a circle of 256 atoms", "".join(f"x{i}:-x{(i + 1) % 256}." for i in range(256)) + "?-x0.", 9),
]

HEADS = numbers(192, "d")
FACTS = facts((HEADS * 3)[:511])
# Every limit used up: a constraint of 64 conditions, 126 of nothing, one of 960 alternatives.
LIMITS_BOOK = (listed(marked(numbers(64, "a"))) + "--->false." + "true--->false." * 126
               + "true--->" + listed(["naf(d0)"] * 960, ";") + "." + FACTS
               + "d191:-" + listed(["abd(a1)"] * 1024) + "." + "?-" + listed(["d191"] * 16) + ".")
LIMITS_FIELDS = ("0100 0040 0010" + digits([2 * 255] * 16)
                  + "0200" + "".join(f"0002{64 + i % 192:04x}" for i in range(511)) + "0802 00ff" + "0002" * 1024
                  + "0080" + "0082 0040" + digits(range(0, 128, 2)) + "0002 0000" * 126 + "0f02 0000" + "0001 0081" * 960)
# The same with each of the 1,024 literals an alternative by itself: 8,751 bytes.
LONGEST_BOOK = ("true--->" + listed(marked(numbers(64, "a")) + ["d0"] * 960, ";") + "." + "true--->false." * 127
                + FACTS + "d191:-" + listed(["abd(a1)"] * 1024) + "." + "?-" + listed(["d191"] * 16) + ".")
LONGEST_FIELDS = ("0100 0040 0010" + digits([2 * 255] * 16)
                  + "0200" + "".join(f"0002{64 + i % 192:04x}" for i in range(511)) + "0802 00ff" + "0002" * 1024
                  + "0080" + "1002 0000" + "".join(f"0001{2 * i:04x}" for i in range(64)) + "0001 0080" * 960 + "0002 0000" * 127)

# Texts about as long as can be: (name, text, answer), each with the greatest room.
LENGTHS = [
    ("A1.8: 32,768 bytes, blanks behind", padded(SPIKE, LONGEST), P1),
    ("A1.8: 32,769 bytes, blanks behind", padded(SPIKE, LONGEST + 1), 50),
    ("A1.8: 32,768 bytes, blanks in the middle", padded(SPIKE, LONGEST, 48), P1),
    ("A1.8: 32,768 bytes that end in a fault", padded(SPIKE, LONGEST - 1) + ".", 50),
    ("A1.8: 32,769 bytes with a 51", padded("?- x, abd(x).", LONGEST + 1), 50),
    ("A1.8: 40,000 bytes", padded(SPIKE, 40000), 50),
    ("A1.8: 32,768 bytes of one name", "x" * LONGEST, 50),
    ("A1.8: 8,192 names in 32,768 bytes", facts(short_names(8191)) + "?-a.", 5),
    ("A1.8: 51 among 8,187 names, by the first", facts(short_names(8187)) + "?-abd(aaa).", 51),
    ("A1.8: 51 among 300 names, beyond the 256th", facts(numbers(300)) + "?-abd(x299).", 51),
    ("A1.8: 51 among 8,187 names, by the last", facts(short_names(8187)) + f"?-abd({short_names(8187)[-1]}).", 51),
    ("A1.8: 51 among 300 names, the first", facts(numbers(300)) + "?-abd(x0).", 51),
    ("A1.8: 51 between the 256th and the 257th name", facts(numbers(256)) + "y:-abd(x255).?-x0.", 51),
    ("A1.8: 51 by the 257th name", facts(numbers(257)) + "?-abd(x256).", 51),
    ("A1.8: 51 among 100 abducibles", listed(marked(numbers(100))) + "--->x99.?-true.", 51),
    ("A1.8: 300 names, each once", facts(numbers(300)) + "?-abd(y).", 5),
    ("A1.10: a constraint's record of 65,520 bytes", "a--->" + listed(["a"] * 16379, ";") + ".?-a.", 5),
    ("A1.10: a goal of 16,382 literals", "?-" + listed(["a"] * 16382) + ".", 5),
    ("A1.10: 16,382 facts", "a." * 16382 + "?-a.", 5),
    ("A1.4: every limit used up, with conditions", LIMITS_BOOK, fields(LIMITS_FIELDS)),
    ("A1.4: the longest image, 8,751 bytes", LONGEST_BOOK, fields(LONGEST_FIELDS)),
]

# Rooms: (name, text, room, answer).
ROOMS = [
    ("A1.10: room for just P1", SPIKE, 45, P1),
    ("A1.10: room short by one for P1", SPIKE, 44, 52),
    ("A1.10: room for P1 and a byte", SPIKE, 46, P1),
    ("A1.10: room for P1 and much more", SPIKE, MOST, P1),
    ("A1.10: no room for P1", SPIKE, 0, 52),
    ("A1.10: room of one byte for P1", SPIKE, 1, 52),
    ("A1.10: room of five bytes for P1", SPIKE, 5, 52),
    ("A1.10: room for what follows P1's header", SPIKE, 40, 52),
    ("A1.10: room for just the smallest image", "?- a.", 17, A),
    ("A1.10: room short by one for the smallest image", "?- a.", 16, 52),
    ("A1.10: room for the empty goal", "true--->false.a.?-true.", 23, fields("0001 0000 0000 0001 0002 0000 0001 0002 0000")),
    ("A1.10: room short by one for the empty goal", "true--->false.a.?-true.", 22, 52),
    ("A1.10: room for just the longest image", LONGEST_BOOK, LONGEST_IMAGE, fields(LONGEST_FIELDS)),
    ("A1.10: room short by one for the longest image", LONGEST_BOOK, LONGEST_IMAGE - 1, 52),
    ("A1.4: 50 before 52", "?- a", 0, 50),
    ("A1.4: 51 before 52", "?- a, abd(a).", 0, 51),
    ("A1.4: 5 before 52", "?- true.", 0, 5),
    ("A1.4: 7 before 52", "abd(a). ?- b.", 0, 7),
    ("A1.4: 9 before 52", "p :- p. ?- p.", 0, 9),
    ("A1.4: 9 before 52, room short by one", "p :- p. ?- p.", 22, 9),
    ("A1.4: 50 in a room of one byte", "", 1, 50),
]


def table():
    for name, text, answer in EXAMPLES + FORMS + BLANKS + SIGNS + NAMES + MIXED + MALFORMED + BOTH_WAYS + ORDER + WALK:
        yield name, text, ROOM, answer
    for name, text, answer in LIMITS + LENGTHS:
        yield name, text, MOST, answer
    yield from ROOMS


def full_line(answer):
    """The whole line of an answer."""
    if isinstance(answer, int):
        return f"refused {answer} room untouched"
    return f"written {len(answer)} bytes {answer.hex()} rest untouched"


def stored():
    """(name, packed case, line), each answer written by hand and met by the reader of texts."""
    for name, text, room, answer in table():
        typed = text.encode("latin-1")
        given = line_text(typed, room)
        assert given == full_line(answer), (name, given, full_line(answer))
        yield name, pack_text(typed, room), given
