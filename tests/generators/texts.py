"""Seeded generators of texts for the reader of texts: sound ones with blanks of every kind, at and over each limit, with loops, with heads
and names that are marked wrongly, and damaged ones.

Written from the specification alone; shares no code with the engine.
Every function takes a random.Random, so a seed gives the same cases again.
"""

from dataclasses import replace

from tests.generators import images
from tests.generators.images import pick
from tests.implementation import text
from tests.implementation.answers import LONGEST_CASE_TEXT, MOST_BYTES, pack_names, pack_text
from tests.implementation.reader import MOST_ABDUCIBLES, MOST_ATOMS
from tests.implementation.text import (ABD, AND, ASK, CLOSE, FALSE, IF, LONGEST_NAME, LONGEST_TEXT, NAF, OR, STOP, THEN, TRUE, Atom, Clause,
                                       Constraint, Document, Literal)

SMALL = b"abcdefghijklmnopqrstuvwxyz"
CAPITALS = SMALL.upper()
DIGITS = b"0123456789"
MORE = SMALL + CAPITALS + DIGITS + b"_"
BLANKS = b" \t\n\r"
SIGN_BYTES = b":-?>.,;()"

# Names that begin, end or go on as the fixed words do.
LIKE_FIXED = (b"truely", b"true_", b"true1", b"trueT", b"falsey", b"false_", b"abd_", b"abdx", b"abd0", b"abdabd", b"nafx", b"naf_", b"nafnaf",
              b"tru", b"fals", b"ab", b"na", b"xabd", b"xnaf", b"xtrue", b"atrue", b"nafabd", b"t", b"f", b"a", b"n")
NO_NAMES = (b"abd", b"naf", b"true", b"false", b"A", b"X1", b"_", b"_a", b"0", b"7up", b"TRUE", b"Abd", b"a" * 32, b"x" * 33, b"q" * 64)


# Names.

def some_name(rng, least=1, most=LONGEST_NAME):
    """A name of some length, all lengths alike."""
    while True:
        length = rng.randint(least, most)
        name = bytes([rng.choice(SMALL)]) + bytes(rng.choices(MORE, k=length - 1))
        if text.is_name(name):
            return name


def name_family(rng):
    """What makes names of one style."""
    stem = some_name(rng, 1, 27)
    letter = bytes([rng.choice(SMALL)])
    return pick(rng, (
        (4, lambda: some_name(rng)),
        (3, lambda: some_name(rng, 1, 2)),
        (2, lambda: some_name(rng, 30, 31)),
        (3, lambda: rng.choice(LIKE_FIXED)),
        (2, lambda: stem + bytes(rng.choices(MORE, k=rng.randint(0, LONGEST_NAME - len(stem))))),
        (1, lambda: letter * rng.randint(1, LONGEST_NAME)),
        (2, lambda: letter + str(rng.randrange(1000)).encode()),
    ))


def some_names(rng, count):
    """So many different names; short ones where they are many."""
    found = {}
    family = name_family(rng)
    while len(found) < count:
        name = family()
        if name in found or not text.is_name(name) or rng.random() < 0.02:
            family = name_family(rng)
        if count > 60:
            name = some_name(rng, 2, 3)
        if text.is_name(name):
            found.setdefault(name)
    return list(found)


# Documents.

def document_of(rng, book):
    """The book as a document, with names of its own; clauses and constraints are mixed, each kind in order."""
    atoms = [Atom(name, place < book.abducibles) for place, name in enumerate(some_names(rng, book.atoms))]

    def literals(found):
        return tuple(Literal(atoms[literal >> 1], literal & 1 == 1) for literal in found)

    clauses = [Clause(atoms[clause.head], literals(clause.body)) for clause in book.clauses]
    constraints = [
        Constraint(literals(constraint.conditions), tuple(map(literals, constraint.alternatives))) for constraint in book.constraints
    ]
    return Document(tuple(mixed(rng, clauses, constraints)), literals(book.goal))


def mixed(rng, left, right):
    """The things of both lists, those of each in order."""
    turns = [0] * len(left) + [1] * len(right)
    order = rng.choice(("mixed", "left", "right"))
    if order == "mixed":
        rng.shuffle(turns)
    sides = (iter(left), iter(right))
    return [next(sides[turn]) for turn in (turns[::-1] if order == "right" else turns)]


def sound_document(rng):
    return document_of(rng, images.sound_book(rng, pick(rng, ((4, "tiny"), (6, "small"), (2, "medium"), (0.3, "large")))))


def limit_document(rng):
    return document_of(rng, images.limit_book(rng)) if rng.random() < 0.6 else many_atoms(rng)


def loop_document(rng):
    return document_of(rng, images.loop_book(rng) if rng.random() < 0.8 else images.chain_book(rng))


def many_atoms(rng):
    """About 64 abducibles or about 256 atoms, or many more, each mentioned once or more."""
    marks = rng.choice((0, 1, MOST_ABDUCIBLES - 1, MOST_ABDUCIBLES, MOST_ABDUCIBLES, MOST_ABDUCIBLES + 1, 100))
    others = rng.choice((0, 3, MOST_ATOMS - marks - 1, MOST_ATOMS - marks, MOST_ATOMS - marks, MOST_ATOMS - marks + 1, 400))
    count = max(marks + others, 1)
    atoms = [Atom(name, place < marks) for place, name in enumerate(some_names(rng, count))]
    rng.shuffle(atoms)
    statements = []
    while atoms:
        taken = [atoms.pop() for _ in range(min(len(atoms), rng.choice((1, 2, 8, 40))))]
        if rng.random() < 0.5 and not taken[0].marked:
            statements.append(Clause(taken[0], tuple(Literal(atom, rng.random() < 0.3) for atom in taken[1:])))
        else:
            statements.append(Constraint(tuple(Literal(atom, rng.random() < 0.3) for atom in taken), ()))
    last = statements.pop() if isinstance(statements[-1], Constraint) and len(statements[-1].conditions) <= 16 else None
    return Document(tuple(statements), last.conditions if last else ())


# Changes to a document: marks and mentions.

def changed_atoms(document, change):
    """The document with every mention of an atom changed; the change is given the mention's place too."""
    place = iter(range(1 << 30))

    def atom(found):
        return change(next(place), found)

    def literals(found):
        return tuple(replace(literal, atom=atom(literal.atom)) for literal in found)

    def statement(found):
        if isinstance(found, Clause):
            return Clause(atom(found.head), literals(found.body))
        return Constraint(literals(found.conditions), tuple(literals(alternative) for alternative in found.alternatives))

    statements = tuple(statement(found) for found in document.statements)
    return Document(statements, literals(document.goal))


def head_marked(rng, document):
    """Some head's atom with abd wherever it stands: 7, unless something comes before it."""
    clauses = [found for found in document.statements if isinstance(found, Clause)]
    if not clauses:
        return document
    name = rng.choice(clauses).head.name
    return changed_atoms(document, lambda _, atom: Atom(name, True) if atom.name == name else atom)


def mention_flipped(rng, document):
    """One mention with abd where it had none, or without: 51 if the name stands elsewhere."""
    count = sum(1 for _ in document.atoms())
    if not count:
        return document
    chosen = rng.choice((0, count - 1, rng.randrange(count), rng.randrange(count)))
    return changed_atoms(document, lambda place, atom: Atom(atom.name, not atom.marked) if place == chosen else atom)


def mention_added(rng, document):
    """A mention of some atom's name the other way, in a place of any kind: 51."""
    found = list(document.atoms())
    if not found:
        return document
    atom = rng.choice((found[0], found[-1], rng.choice(found)))
    other = Literal(Atom(atom.name, not atom.marked), rng.random() < 0.4)
    another = Literal(rng.choice(found), rng.random() < 0.4)
    if rng.random() < 0.3:
        goal = list(document.goal)
        goal.insert(rng.randint(0, len(goal)), other)
        return replace(document, goal=tuple(goal))
    statement = rng.choice((
        Clause(other.atom, ()), Clause(other.atom, (another,)), Clause(another.atom, (other,)), Clause(another.atom, (another, other)),
        Constraint((other,), ()), Constraint((another, other), ()), Constraint((), ((other,),)), Constraint((another,), ((other, another),)),
        Constraint((), ((another,), (other,))),
    ))
    statements = list(document.statements)
    statements.insert(rng.randint(0, len(statements)), statement)
    return replace(document, statements=tuple(statements))


def renamed(rng, document):
    """Two names made one: marks may clash, loops may close."""
    names = list(dict.fromkeys(atom.name for atom in document.atoms()))
    if len(names) < 2:
        return document
    old, new = rng.sample(names, 2)
    return changed_atoms(document, lambda _, atom: Atom(new, atom.marked) if atom.name == old else atom)


CHANGES = (head_marked, mention_flipped, mention_added, renamed)


def some_document(rng):
    """A document, sound or over a limit or with a loop, in some cases changed once or twice."""
    document = pick(rng, ((6, sound_document), (2, limit_document), (3, loop_document)))(rng)
    for _ in range(pick(rng, ((5, 0), (4, 1), (1, 2)))):
        document = rng.choice(CHANGES)(rng, document)
    return document


def small_document(rng):
    return document_of(rng, images.sound_book(rng, rng.choice(("tiny", "tiny", "small"))))


# From a document to its words, and from words to a text.

def separated(lists, sign):
    """The words of these lists with a sign between each two."""
    found = []
    for place, each in enumerate(lists):
        found += [sign] * (place > 0) + each
    return found


def words_of_atom(atom):
    return [ABD, atom.name, CLOSE] if atom.marked else [atom.name]


def words_of_literals(literals):
    return separated([
        [NAF] + words_of_atom(literal.atom) + [CLOSE] if literal.negated else words_of_atom(literal.atom) for literal in literals
    ], AND)


def words_of_statement(statement):
    if isinstance(statement, Clause):
        return words_of_atom(statement.head) + ([IF] + words_of_literals(statement.body) if statement.body else []) + [STOP]
    conditions = words_of_literals(statement.conditions) if statement.conditions else [TRUE]
    alternatives = separated(map(words_of_literals, statement.alternatives), OR) if statement.alternatives else [FALSE]
    return conditions + [THEN] + alternatives + [STOP]


def words_of(document):
    """The words of a document in order."""
    found = [word for statement in document.statements for word in words_of_statement(statement)]
    return found + [ASK] + (words_of_literals(document.goal) if document.goal else [TRUE]) + [STOP]


def gap(rng):
    return bytes(rng.choices(BLANKS, k=rng.choice((0, 0, 1, 1, 2, 5))))


def laid_out(word):
    """The word as people lay it out."""
    if word == STOP:
        return word + b"\n"
    if word in (AND, ASK):
        return word + b" "
    return b" " + word + b" " if word in (IF, THEN, OR) else word


def typed(rng, words):
    """A text of these words: without blanks, with one between each two, laid out in lines, or with any blanks anywhere."""
    style = rng.choice(("none", "one", "lines", "returns", "any", "any", "few"))
    if style == "none":
        return b"".join(words)
    if style == "one":
        return bytes([rng.choice(BLANKS)]).join(words)
    if style in ("lines", "returns"):
        lines = b"".join(map(laid_out, words))
        return lines.replace(b"\n", b"\r\n") if style == "returns" else lines
    if style == "any":
        return b"".join(gap(rng) + word for word in words) + gap(rng)
    return b"".join(word + (gap(rng) if rng.random() < 0.1 else b"") for word in words)


# Damage to words.

VOCABULARY = (ABD, NAF, CLOSE, AND, OR, STOP, IF, THEN, ASK, TRUE, FALSE, b"(", b"abd", b"naf", b"a", b"b", b"x")


def some_word(rng):
    return rng.choice(VOCABULARY) if rng.random() < 0.8 else rng.choice((some_name(rng), rng.choice(LIKE_FIXED), rng.choice(NO_NAMES)))


def word_gone(rng, words):
    del words[rng.randrange(len(words))]


def word_twice(rng, words):
    place = rng.randrange(len(words))
    words.insert(place, words[place])


def words_swapped(rng, words):
    """Two neighbours, or any two."""
    a = rng.randrange(len(words))
    b = min(a + 1, len(words) - 1) if rng.random() < 0.6 else rng.randrange(len(words))
    words[a], words[b] = words[b], words[a]


def word_put_in(rng, words):
    words.insert(rng.randint(0, len(words)), some_word(rng))


def word_changed(rng, words):
    words[rng.randrange(len(words))] = some_word(rng)


def word_cut(rng, words):
    """A word without its last or its first byte."""
    place = rng.randrange(len(words))
    words[place] = words[place][:-1] if rng.random() < 0.6 else words[place][1:]


def words_cut_off(rng, words):
    """Nothing behind some place, or nothing before it."""
    place = rng.randint(0, len(words))
    if rng.random() < 0.6:
        del words[place:]
    else:
        del words[:place]


def statement_moved(rng, words):
    """What stands before some full stop put behind the goal line."""
    stops = [place for place, word in enumerate(words) if word == STOP]
    if stops:
        place = rng.choice(stops) + 1
        words[:] = words[place:] + words[:place]


def goal_line(rng, words):
    """The goal line gone, doubled, or with something behind it; or only ?- gone."""
    at = max((place for place, word in enumerate(words) if word == ASK), default=0)
    goal = words[at:]
    kind = rng.randrange(5)
    if kind == 0:
        del words[at:]
    elif kind == 1:
        words += goal
    elif kind == 2:
        words.append(some_word(rng))
    elif kind == 3:
        words[at:at + 1] = []
    else:
        place = rng.randint(0, at)
        words[place:place] = goal


ARROWS = (b"-->", b"---->", b"->", b"--->>", b"- -->", b"-- ->", b"--- >", b"---", b"--->--->", b"=>", b"<---", b"-- -->", b"----", b":-")
IFS = (b":--", b": -", b"::-", b":", b"-", b"<-", b"-:", b":-:-", b":\n-", b"--->", b"?-")
ASKS = (b"? -", b"??-", b"?--", b"?", b"-", b"-?", b"?:-", b":-", b"?\t-", b"?-?-", b"")
OTHER_SIGNS = {THEN: ARROWS, IF: IFS, ASK: ASKS, STOP: (b"", b"..", b",", b";", b". ."), AND: (b"", b",,", b";", b".", b" "),
               OR: (b"", b";;", b",", b"|", b"."), CLOSE: (b"", b"))", b"]", b" "),
               ABD: (b"abd (", b"abd", b"abd((", b"(", b"Abd(", b"abd\n(", b"ab d(", b"naf(", b"abd(naf(", b"abd(abd("),
               NAF: (b"naf (", b"naf", b"naf((", b"not(", b"naf(naf(", b"naf\t(", b"abd(", b"na f("),
               TRUE: (b"true,true", b"false", b"tru", b"truee", b"tr ue", b"", b"True", b"naf(true)", b"true()", b"true,a", b"a,true"),
               FALSE: (b"false;false", b"true", b"fals", b"falsee", b"", b"False", b"naf(false)", b"false,a", b"a;false", b"false;a")}


def sign_changed(rng, words):
    """A sign or a fixed word put wrongly, each kind as often as the others."""
    kinds = sorted(set(words) & set(OTHER_SIGNS))
    if kinds:
        kind = rng.choice(kinds)
        place = rng.choice([place for place, word in enumerate(words) if word == kind])
        words[place] = rng.choice(OTHER_SIGNS[kind])


def name_changed(rng, words):
    """A name put wrongly, or something that is none in its place."""
    places = [place for place, word in enumerate(words) if text.is_name(word)]
    if places:
        place = rng.choice(places)
        name = words[place]
        words[place] = rng.choice((
            rng.choice(NO_NAMES), name[:1] * 32, name.upper(), b"_" + name, b"1" + name, name + b"-", name + b"(a)", b"(" + name + b")",
            b"naf(naf(" + name + b"))", b"abd(abd(" + name + b"))", b"abd(naf(" + name + b"))", b"abd (" + name + b")", b"naf (" + name + b")",
            b"abd( " + name + b" )", b"naf(" + name + b")", b"abd(" + name + b")", b"naf(abd(" + name + b"))", name + b" " + name,
            name + b"," + name, name + b";" + name, TRUE, FALSE, name + b",true", b"false," + name, b"true," + name, b"",
            (name + b"x" * 31)[:31], (name + b"x" * 32)[:32], b"abd" + name, b"naf" + name, b"true" + name,
        ))


def word_split(rng, words):
    """A blank inside a word or a sign."""
    places = [place for place, word in enumerate(words) if len(word) > 1]
    if places:
        place = rng.choice(places)
        cut = rng.randrange(1, len(words[place]))
        words[place] = words[place][:cut] + bytes([rng.choice(BLANKS)]) + words[place][cut:]


def emptied(rng, words):
    """All between two signs gone: an empty body, condition, alternative, goal or bracket."""
    place = rng.randrange(len(words))
    while place < len(words) and words[place] not in (STOP, AND, OR, THEN, IF, ASK, CLOSE):
        del words[place]


WORD_DAMAGES = (word_gone, word_twice, words_swapped, word_put_in, word_changed, word_cut, words_cut_off, statement_moved, goal_line,
                sign_changed, sign_changed, sign_changed, name_changed, name_changed, name_changed, word_split, emptied)


# Damage to bytes.

BYTE_CLASSES = (b"\0", b"\x0b", b"\x0c", b"\x7f", b"\x1a\x1c\x1f\x08", bytes(range(128, 256)), b"\x85\xa0\xe1\xff", SMALL, CAPITALS, DIGITS, b"_",
                SIGN_BYTES, SIGN_BYTES, b"%#/*'\"!$&+<=@[]\\^`{|}~", BLANKS)


def some_byte(rng):
    return bytes([rng.choice(rng.choice(BYTE_CLASSES))])


def byte_damaged(rng, made):
    """A byte of any class put in, put in place of another, or one taken out; at either end or anywhere."""
    place = rng.choice((0, len(made), rng.randint(0, len(made)), rng.randint(0, len(made)), rng.randint(0, len(made))))
    behind = rng.choice((0, 0, 1))
    return made[:place] + (some_byte(rng) if rng.random() < 0.8 else b"") + made[place + behind:]


def part_damaged(rng, made):
    """Some bytes gone, or there twice."""
    a = rng.randint(0, len(made))
    b = min(len(made), a + rng.choice((1, 2, 5, 20)))
    return made[:a] + made[b:] if rng.random() < 0.5 else made[:b] + made[a:]


# Texts.

def sound_text(rng):
    return typed(rng, words_of(sound_document(rng)))


def document_text(rng):
    return typed(rng, words_of(some_document(rng)))


def both_ways_text(rng):
    document = pick(rng, ((4, sound_document), (2, limit_document), (1, loop_document)))(rng)
    return typed(rng, words_of(rng.choice((mention_flipped, mention_added))(rng, document)))


def headed_text(rng):
    document = pick(rng, ((4, sound_document), (3, limit_document), (1, loop_document)))(rng)
    return typed(rng, words_of(head_marked(rng, document)))


def limit_text(rng):
    return typed(rng, words_of(limit_document(rng)))


def loop_text(rng):
    return typed(rng, words_of(loop_document(rng)))


def damaged_text(rng):
    """Words damaged once, or a few times."""
    words = words_of(pick(rng, ((6, small_document), (1, some_document)))(rng))
    for _ in range(rng.choice((1, 1, 1, 2, 3))):
        if words:
            rng.choice(WORD_DAMAGES)(rng, words)
    return typed(rng, words)


def byte_damaged_text(rng):
    made = typed(rng, words_of(pick(rng, ((6, small_document), (1, some_document)))(rng)))
    for _ in range(rng.choice((1, 1, 1, 2, 4))):
        made = pick(rng, ((5, byte_damaged), (1, part_damaged)))(rng, made)
    return made


def words_text(rng):
    """Words in any order, with a goal line behind them in most cases."""
    words = [rng.choice((b"a", b"b", some_word(rng), some_word(rng))) for _ in range(rng.randint(0, 8))]
    return typed(rng, words + rng.choice(([], [ASK, b"a", STOP], [ASK, b"a", STOP], [ASK, TRUE, STOP], [STOP, ASK, b"a", STOP])))


PIECES = (b"a", b"b", b"abd(c)", b"naf(a)", b"naf(abd(c))", b"true", b"false")


def pieces_text(rng):
    """Statements of sound pieces and signs between them, mostly as the grammar has them."""
    def some(signs):
        return b"".join(rng.choice(PIECES[:5] if rng.random() < 0.85 else PIECES) + rng.choice(signs) for _ in range(rng.choice((0, 0, 0, 1, 2))))
    statements = []
    for _ in range(rng.randrange(4)):
        front = some((b",",)) + rng.choice(PIECES)
        behind = rng.choice((b"", b":-" + some((b",",)) + rng.choice(PIECES), b"--->" + some((b",", b";")) + rng.choice(PIECES)))
        statements.append(front + behind + b".")
    goal = rng.choice((b"?-" + some((b",",)) + rng.choice(PIECES) + b".", b"?-a.", b"?-true."))
    return rng.choice((b"", b" ", b"\r\n")).join(statements + [goal])


def with_length(rng, made, length):
    """The text with blanks put in at some gap, up to this length."""
    place = rng.choice((0, len(made), made.find(STOP) + 1, made.find(AND) + 1))
    return made[:place] + bytes([rng.choice(BLANKS)]) * (length - len(made)) + made[place:]


def long_text(rng):
    """About as long as a text may be: by blanks, by many names, by many literals, alternatives or statements."""
    length = LONGEST_TEXT + rng.choice((-1, 0, 0, 0, 1, 1, 2, rng.randint(3, LONGEST_CASE_TEXT - LONGEST_TEXT)))
    kind = rng.randrange(6)
    if kind < 3:
        return with_length(rng, typed(rng, words_of(some_document(rng))), length)[:LONGEST_CASE_TEXT]
    if kind == 3:
        names = some_names(rng, 1500)
        made = b"".join(name + b"." for name in names) + b"?-" + rng.choice((b"abd(%s)" % rng.choice(names), rng.choice(names), b"true")) + b"."
        return with_length(rng, made, length)
    unit, front = rng.choice(((b"a;", b"a--->"), (b"a,", b"a:-"), (b"naf(a);", b"true--->"), (b"a,", b"?-"), (b"a.", b""), (b"a:-b.", b""),
                              (b"abd(a);", b"b--->"), (b"abd(a).", b""), (b"true--->false.", b"")))
    goal = b"a." if front == b"?-" else b"a.?-a."
    made = front + unit * ((length - len(front) - len(goal)) // len(unit)) + goal
    return with_length(rng, made, length)


def random_text(rng):
    """Bytes of any kind, few."""
    return b"".join(rng.choice((some_byte(rng), some_word(rng))) for _ in range(rng.randint(0, 10)))


def some_text(rng):
    """A text for the reader of texts."""
    made = pick(rng, (
        (16, sound_text), (12, document_text), (8, both_ways_text), (6, headed_text), (6, limit_text), (5, loop_text),
        (24, damaged_text), (12, byte_damaged_text), (5, words_text), (10, pieces_text), (0.7, long_text), (1, random_text),
    ))(rng)
    return made[:LONGEST_CASE_TEXT]


# Cases.

def room_for(rng, output):
    """A room about as long as the output; any for a refusal."""
    length = len(output) if isinstance(output, bytes) else rng.choice((0, 20, 100))
    room = rng.choice((length, length, length, length + 1, max(length - 1, 0), max(length - 1, 0), length + 50, length // 2, 0, 5,
                       MOST_BYTES if rng.random() < 0.2 else length + 7))
    return min(room, MOST_BYTES)


def text_case(rng):
    made = some_text(rng)
    return pack_text(made, room_for(rng, text.read(made, MOST_BYTES)))


def names_case(rng):
    made = some_text(rng)
    return pack_names(made, room_for(rng, text.names(made, MOST_BYTES)))


CASES = {6: text_case, 12: names_case}
