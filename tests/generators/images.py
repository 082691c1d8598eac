"""Seeded generators of test cases: images for the reader, sound and damaged;
small books for judge and lister; lists for the joiner.

Written from the specification alone; shares no code with the engine.
Every function takes a random.Random, so a seed gives the same cases again.
"""

from tests.implementation.answers import pack_join, pack_judge, pack_list, pack_read
from tests.implementation.joiner import smallest
from tests.implementation.reader import (MOST_ABDUCIBLES, MOST_ATOMS, MOST_BODY_LITERALS, MOST_CLAUSES,
                    MOST_CONSTRAINT_LITERALS, MOST_CONSTRAINTS, MOST_GOAL_LITERALS,
                    Book, Clause, Constraint, depends_on, encode, fields, framed, read)
from tests.implementation.search import WORK_NUMBERS, explore


def pick(rng, weighted):
    """One of the (weight, thing) pairs' things."""
    weights, things = zip(*weighted)
    return rng.choices(things, weights)[0]


# Sound books.

def some_literal(rng, atoms):
    return 2 * rng.choice(atoms) + rng.randrange(2)


def some_literals(rng, atoms, count):
    return tuple(some_literal(rng, atoms) for _ in range(count)) if atoms else ()


def shares(rng, total, parts):
    """The total cut into so many parts, some of them perhaps 0."""
    cuts = sorted(rng.randint(0, total) for _ in range(parts - 1))
    return [b - a for a, b in zip([0] + cuts, cuts + [total])]


def some_clauses(rng, atoms, abducibles, count, body_total):
    """Loop-free clauses: a body names only atoms that come earlier in a hidden order."""
    defined = list(range(abducibles, atoms))
    if not defined or count == 0:
        return ()
    rng.shuffle(defined)
    below = list(range(abducibles))
    usable = {}
    for atom in defined:
        usable[atom] = tuple(below)
        below.append(atom)
    heads = [rng.choice(defined) for _ in range(count)]
    return tuple(
        Clause(head, some_literals(rng, usable[head], length))
        for head, length in zip(heads, shares(rng, body_total, count))
    )


def some_constraint(rng, atoms, count):
    """A constraint with so many literals, shared among conditions and alternatives."""
    literals = some_literals(rng, range(atoms), count)
    cut = rng.randint(0, count)
    alternatives = []
    rest = literals[cut:]
    while rest:
        length = rng.randint(1, min(len(rest), rng.choice((1, 2, 5, 1024))))
        alternatives.append(rest[:length])
        rest = rest[length:]
    return Constraint(literals[:cut], tuple(alternatives))


def some_constraints(rng, atoms, count, total):
    if count == 0:
        return ()
    return tuple(some_constraint(rng, atoms, n) for n in shares(rng, total, count))


SIZES = {  # most: atoms, abducibles, goal, clauses, body literals, constraints, their literals
    "tiny": (4, 3, 2, 3, 5, 2, 4),
    "small": (12, 6, 4, 10, 20, 5, 15),
    "medium": (60, 30, 16, 60, 150, 30, 120),
    "large": (256, 64, 16, 512, 1024, 128, 1024),
}


def sound_book(rng, size=None):
    """A book that is accepted."""
    size = size or pick(rng, ((3, "tiny"), (5, "small"), (2, "medium"), (0.5, "large")))
    most = SIZES[size]
    atoms = rng.randint(1, most[0])
    abducibles = rng.randint(0, min(atoms, most[1]))
    goal = some_literals(rng, range(atoms), rng.randint(0, most[2]))
    clauses = some_clauses(rng, atoms, abducibles, rng.randint(0, most[3]), rng.randint(0, most[4]))
    constraints = some_constraints(rng, atoms, rng.randint(0, most[5]), rng.randint(0, most[6]))
    return Book(atoms, abducibles, goal, clauses, constraints)


# Books at a limit and just over it.

def limit_book(rng):
    """A book that meets one limit exactly or breaks it by one."""
    over = rng.randrange(2)
    return rng.choice((
        atoms_limit, abducibles_limit, abducibles_to_atoms, goal_limit, clauses_limit,
        body_limit, constraints_limit, constraint_literals_limit,
    ))(rng, over)


def atoms_limit(rng, over):
    book = sound_book(rng, "small")
    atoms = MOST_ATOMS + over
    return Book(atoms, book.abducibles, book.goal, book.clauses, book.constraints)


def abducibles_limit(rng, over):
    abducibles = MOST_ABDUCIBLES + over
    atoms = rng.randint(abducibles, MOST_ATOMS)
    goal = some_literals(rng, range(atoms), rng.randint(0, 3))
    return Book(atoms, abducibles, goal, some_clauses(rng, atoms, abducibles, 3, 5))


def abducibles_to_atoms(rng, over):
    atoms = rng.randint(1, MOST_ABDUCIBLES - 1)
    goal = some_literals(rng, range(atoms), rng.randint(0, 3))
    return Book(atoms, atoms + over, goal)


def goal_limit(rng, over):
    book = sound_book(rng, "small")
    goal = some_literals(rng, range(book.atoms), MOST_GOAL_LITERALS + over)
    return Book(book.atoms, book.abducibles, goal, book.clauses, book.constraints)


def clauses_limit(rng, over):
    atoms = rng.randint(2, 40)
    clauses = some_clauses(rng, atoms, 1, MOST_CLAUSES + over, rng.randint(0, 300))
    return Book(atoms, 1, (), clauses, some_constraints(rng, atoms, 2, 5))


def body_limit(rng, over):
    atoms = rng.randint(5, 60)
    count = rng.choice((1, 2, 30, MOST_CLAUSES))
    lengths = shares(rng, MOST_BODY_LITERALS + over, count)
    clauses = tuple(Clause(atoms - 1, some_literals(rng, range(4), n)) for n in lengths)
    facts = (Clause(atoms - 1),) * rng.randint(0, min(3, MOST_CLAUSES - count))
    return Book(atoms, rng.randint(0, 4), (), clauses + facts)


def constraints_limit(rng, over):
    book = sound_book(rng, "small")
    constraints = some_constraints(rng, book.atoms, MOST_CONSTRAINTS + over, rng.randint(0, 200))
    return Book(book.atoms, book.abducibles, book.goal, book.clauses, constraints)


def constraint_literals_limit(rng, over):
    book = sound_book(rng, "small")
    count = rng.choice((1, 2, 20, MOST_CONSTRAINTS))
    if rng.random() < 0.4:  # the last constraint's conditions keep the limit or break it, with an alternative behind them sometimes
        last = some_literals(rng, range(book.atoms), rng.randint(1, 3))
        full = some_constraints(rng, book.atoms, min(count, MOST_CONSTRAINTS - 1), MOST_CONSTRAINT_LITERALS + over - len(last))
        constraints = full + (Constraint(last, (last,) * rng.randrange(2)),)
    else:
        constraints = some_constraints(rng, book.atoms, count, MOST_CONSTRAINT_LITERALS + over)
    return Book(book.atoms, book.abducibles, book.goal, book.clauses, constraints)


# Books with loops.

def with_clauses(rng, book, added):
    """The book with more clauses, put in anywhere."""
    clauses = list(book.clauses)
    for clause in added:
        clauses.insert(rng.randint(0, len(clauses)), clause)
    return Book(book.atoms, book.abducibles, book.goal, tuple(clauses), book.constraints)


def roomy_book(rng):
    """A sound book with a defined atom at least and room for more clauses."""
    while True:
        book = sound_book(rng, pick(rng, ((3, "tiny"), (6, "small"), (3, "medium"))))
        if book.abducibles < book.atoms:
            return book


def body_with(rng, book, atom):
    """A short body that names the atom somewhere, negated or not."""
    body = list(some_literals(rng, range(book.atoms), rng.choice((0, 0, 1, 3))))
    body.insert(rng.randint(0, len(body)), 2 * atom + rng.randrange(2))
    return tuple(body)


def loop_book(rng):
    """A book with a loop through one or several atoms, perhaps with atoms above it."""
    book = roomy_book(rng)
    defined = list(range(book.abducibles, book.atoms))
    rng.shuffle(defined)
    around = defined[:rng.choice((1, 2, 3, 4, 8, len(defined)))]
    added = [Clause(p, body_with(rng, book, q)) for p, q in zip(around, around[1:] + around[:1])]
    above = defined[len(around):][:rng.randrange(3)]
    added += [Clause(p, body_with(rng, book, rng.choice(around))) for p in above]
    book = with_clauses(rng, book, added)
    return unreachable(book) if rng.random() < 0.3 else book


def tangled_book(rng):
    """Few atoms and clauses among them without any order: loops beside each other and through each other, heads above and below them,
    facts of heads on loops, or no loop at all."""
    abducibles = rng.choice((0, 0, 1, 3))
    atoms = abducibles + rng.randint(1, 8)
    count = rng.randint(1, 2 * (atoms - abducibles) + 2)
    lengths = (0, 1, 1, 1, 1, 2, 2, 3)
    clauses = tuple(
        Clause(rng.randrange(abducibles, atoms), some_literals(rng, range(atoms), rng.choice(lengths))) for _ in range(count)
    )
    goal = some_literals(rng, range(atoms), rng.choice((0, 0, 1, 2, 16)))
    constraints = tuple(small_constraint(rng, atoms) for _ in range(rng.choice((0, 0, 1, 2))))
    return Book(atoms, abducibles, goal, clauses, constraints)


def off_loops_first(book):
    """The same book, its clauses with heads off every loop in front: the place of its 9 is behind them."""
    below = depends_on(book)
    clauses = tuple(sorted(book.clauses, key=lambda clause: below[clause.head] >> clause.head & 1))
    return Book(book.atoms, book.abducibles, book.goal, clauses, book.constraints)


def unreachable(book):
    """The same book with a goal of abducibles only, or none."""
    goal = tuple(literal for literal in book.goal if literal >> 1 < book.abducibles)
    return Book(book.atoms, book.abducibles, goal, book.clauses)


def chain_book(rng):
    """One long chain of atoms, closed into a loop or left open."""
    atoms = rng.randint(2, MOST_ATOMS)
    chain = list(range(atoms))
    if rng.random() < 0.7:
        rng.shuffle(chain)
    clauses = [Clause(p, (2 * q + rng.randrange(2),)) for p, q in zip(chain, chain[1:])]
    if rng.random() < 0.5:
        clauses.append(Clause(chain[-1], (2 * rng.choice(chain),)))
    rng.shuffle(clauses)
    constraint = Constraint((2 * chain[-1],), ((2 * chain[0],),))
    return Book(atoms, 0, (), tuple(clauses), (constraint,) * rng.randrange(2))


# Damage to fields.

def near(rng, value):
    return rng.choice((value - 1, value + 1, value + 2, value - 2))


def damaged_literal(rng, book, value):
    atoms = 2 * book.atoms
    return rng.choice((atoms - 2, atoms - 1, atoms, atoms, atoms + 1, atoms + 1, 65535, near(rng, value)))


def damaged_head(rng, book, value):
    low = (book.abducibles - 1, book.abducibles - 1, book.abducibles - 1, 0, 0, book.abducibles)
    high = (book.atoms - 1, book.atoms, book.atoms, 65535, near(rng, value))
    return rng.choice(low + high)


def damaged_length(rng, book, value):
    return rng.choice((0, 1, value - 1, value + 1, value - 2, value + 2, value + 4, 2, 65535, 65534,
                       value + 32768, rng.randrange(65536)))


def damaged_count(most):
    """Damage to a count with a limit: about the limit, about its value, or wild."""
    def damage(rng, book, value):
        return rng.choice((0, most, most + 1, most + 1, near(rng, value), near(rng, value), 65535,
                           rng.randrange(65536)))
    return damage


def damaged_constraint_count(rng, book, value):
    """Damage to a condition or alternative count."""
    return rng.choice((0, 0, 0, 0, 0, value + 1, value - 1, value + 2, 1024, 1025, 32767, 32768, 32768 + value,
                       65535))


def damaged_abducibles(rng, book, value):
    return rng.choice((65, 65, book.atoms, book.atoms + 1, near(rng, value), 0, 65535, 256 + value))


DAMAGE = {
    "A": damaged_count(MOST_ATOMS),
    "B": damaged_abducibles,
    "goal count": damaged_count(MOST_GOAL_LITERALS),
    "goal literal": damaged_literal,
    "clause count": damaged_count(MOST_CLAUSES),
    "clause length": damaged_length,
    "head": damaged_head,
    "body literal": damaged_literal,
    "constraint count": damaged_count(MOST_CONSTRAINTS),
    "constraint length": damaged_length,
    "condition count": damaged_constraint_count,
    "condition literal": damaged_literal,
    "alternative count": damaged_constraint_count,
    "alternative literal": damaged_literal,
}

KIND_WEIGHTS = {"head": 6, "alternative count": 7, "body literal": 2, "condition count": 2}


def damaged_fields(rng, book, times):
    """The book's field values, so many of them damaged, each kind with its share."""
    listed = list(fields(book))
    values = [value for _, value in listed]
    kinds = sorted({kind for kind, _ in listed})
    for _ in range(times):
        kind = pick(rng, [(KIND_WEIGHTS.get(kind, 1), kind) for kind in kinds])
        place = rng.choice([i for i, (k, _) in enumerate(listed) if k == kind])
        values[place] = DAMAGE[kind](rng, book, values[place]) % 65536
    return values


def packed_fields(values):
    return b"".join(value.to_bytes(2, "big") for value in values)


# Damage to bytes.

def truncated(rng, rest):
    """Cut at a field's edge, within a field, near the front, or anywhere."""
    if not rest:
        return rest
    near_front = rng.randrange(min(len(rest), 12))
    return rest[:rng.choice((rng.randrange(len(rest)), len(rest) - 1, len(rest) - 2, len(rest) // 2, near_front))]


def lengthened(rng, rest):
    extra = rng.choice((1, 2, 2, 3, 4, 10))
    return rest + rng.choice((bytes(extra), rng.randbytes(extra)))


def flipped(rng, rest):
    """One to three bytes changed."""
    changed = bytearray(rest)
    for _ in range(rng.randint(1, 3)):
        if changed:
            changed[rng.randrange(len(changed))] ^= rng.choice((1, 2, 128, rng.randrange(1, 256)))
    return bytes(changed)


def inserted(rng, rest):
    """A field taken out or put in."""
    place = 2 * rng.randint(0, len(rest) // 2)
    if rng.random() < 0.5:
        return rest[:place] + rest[place + 2:]
    return rest[:place] + rng.choice((b"\0\0", rng.randbytes(2))) + rest[place:]


# Images for the reader.

def rest_of(book):
    return packed_fields(value for _, value in fields(book))


def reframed(rng, rest, wrong=0.06):
    """An image of these bytes, its length field wrong in some share of cases."""
    image = framed(rest)
    if rng.random() < wrong:
        length = max(0, len(rest) + rng.choice((-2, -1, 1, 2, 256, 65536, 1 << 24)))
        image = image[:1] + length.to_bytes(4, "big") + rest
    return image


def sound_image(rng):
    return encode(sound_book(rng))


def limit_image(rng):
    """At a limit or over it; over two in some cases."""
    book = limit_book(rng)
    if rng.random() < 0.2:
        return reframed(rng, packed_fields(damaged_fields(rng, book, 1)))
    return encode(book)


def loop_image(rng):
    book = pick(rng, ((4, loop_book), (1, chain_book), (4, tangled_book)))(rng)
    return encode(off_loops_first(book) if rng.random() < 0.3 else book)


def damaged_image(rng):
    return reframed(rng, packed_fields(damaged_fields(rng, base_book(rng), 1)))


def doubly_damaged_image(rng):
    """Two faults, either of which may come first."""
    rest = packed_fields(damaged_fields(rng, base_book(rng), rng.choice((1, 2, 2, 3))))
    after = rng.choice((None, None, truncated, lengthened, flipped))
    return reframed(rng, after(rng, rest) if after else rest)


def base_book(rng):
    """A book to be damaged: sound mostly, with a loop sometimes."""
    return pick(rng, ((6, sound_book), (1, loop_book), (1, tangled_book), (1, roomy_book)))(rng)


def byte_damaged_image(rng):
    rest = rest_of(base_book(rng))
    return reframed(rng, rng.choice((truncated, lengthened, flipped, inserted))(rng, rest))


def cut_image(rng):
    """A sound image cut or lengthened, its length field left as it was."""
    image = sound_image(rng)
    if rng.random() < 0.5:
        return image[:rng.choice((rng.randrange(len(image)), rng.randrange(6)))]
    return lengthened(rng, image)


def version_image(rng):
    """Another version byte, with other faults behind it sometimes."""
    image = rng.choice((sound_image, damaged_image, cut_image))(rng)
    return bytes([rng.choice((0, 2, 3, 129, 255))]) + image[1:]


def random_image(rng):
    """Random bytes, with a sound header in half of the cases."""
    rest = rng.randbytes(rng.choice((0, 1, 2, 4, 6, 10, 40)))
    if rng.random() < 0.5:
        return framed(bytes(byte & rng.choice((0, 1, 3, 255)) for byte in rest))
    return rest


def image(rng):
    """An image for the reader."""
    return pick(rng, (
        (18, sound_image), (8, limit_image), (12, loop_image), (34, damaged_image),
        (10, doubly_damaged_image), (9, byte_damaged_image), (4, cut_image), (2, version_image),
        (3, random_image),
    ))(rng)


# Small books to judge and to search.

def small_book(rng):
    """A loop-free book with few abducibles, so that all sets can be tried."""
    abducibles = rng.choice((0, 1, 2, 2, 3, 3, 4, 4, 5, 6))
    atoms = abducibles + rng.choice((0, 1, 2, 3, 4, 6, 8))
    atoms = max(atoms, 1)
    count = rng.randint(0, 2 * (atoms - abducibles) + 1)
    clauses = some_clauses(rng, atoms, abducibles, count, rng.randint(0, 2 * count))
    goal = some_literals(rng, range(atoms), rng.choice((0, 1, 1, 2, 3)))
    constraints = tuple(small_constraint(rng, atoms) for _ in range(rng.choice((0, 0, 1, 2, 3, 4))))
    return Book(atoms, abducibles, goal, clauses, constraints)


def small_constraint(rng, atoms):
    conditions = some_literals(rng, range(atoms), rng.choice((0, 1, 1, 2)))
    alternatives = tuple(
        some_literals(rng, range(atoms), rng.choice((1, 1, 2, 3))) for _ in range(rng.choice((0, 1, 1, 2, 3)))
    )
    return Constraint(conditions, alternatives)


def mostly_positive(rng, atoms, count):
    """Literals of which one in eight is negated."""
    return tuple(2 * rng.randrange(atoms) + (rng.randrange(8) == 0) for _ in range(count))


def choice_book(rng):
    """Several atoms with several clauses each: many smallest sets."""
    abducibles = rng.randint(2, 9)
    wanted = rng.randint(1, 3)
    atoms = abducibles + wanted
    clauses = []
    for head in range(abducibles, atoms):
        for _ in range(rng.randint(1, 4)):
            clauses.append(Clause(head, mostly_positive(rng, abducibles, rng.randint(1, 3))))
    constraints = tuple(small_constraint(rng, atoms) for _ in range(rng.randrange(3)))
    return Book(atoms, abducibles, tuple(2 * p for p in range(abducibles, atoms)), tuple(clauses), constraints)


def wide_book(rng):
    """A book with up to 64 abducibles, in which high members matter."""
    abducibles = rng.randint(40, 64)
    atoms = abducibles + rng.randint(1, 6)
    clauses = some_clauses(rng, atoms, abducibles, rng.randint(1, 20), rng.randint(1, 40))
    goal = some_literals(rng, range(abducibles - 3, atoms), rng.randint(0, 4))
    constraints = some_constraints(rng, atoms, rng.randint(0, 3), rng.randint(0, 9))
    return Book(atoms, abducibles, goal, clauses, constraints)


def searched_book(rng):
    return pick(rng, ((6, small_book), (5, choice_book), (1, wide_book), (1, sound_book)))(rng)


# Cases.

TRIED_NODES = 3000  # how far a book is searched to choose a budget and a room for it


def read_case(rng):
    return pack_read(image(rng))


def judge_case(rng):
    if rng.random() < 0.2:
        return pack_judge(image(rng), rng.choice((0, 1, rng.getrandbits(64))))
    book = searched_book(rng)
    return pack_judge(encode(book), judged_set(rng, book))


def judged_set(rng, book):
    """A set to judge: found by searching, any set of abducibles, or one beyond B."""
    kept = explore(book, TRIED_NODES, 1024).kept
    inside = rng.getrandbits(64) & ((1 << book.abducibles) - 1)
    if kept and rng.random() < 0.5:
        return rng.choice(kept) | rng.choice((0, 0, inside))
    beyond = 1 << rng.randint(min(book.abducibles, 63), 63)
    return rng.choice((0, inside, inside, inside, inside, inside & beyond - 1, inside | beyond))


def means(rng, book):
    """Budget, room and work length, often about the exact node number and count."""
    tried = explore(book, TRIED_NODES, 1024)
    nodes, sets = tried.nodes, len(tried.kept)
    budget = rng.choice((nodes, nodes, nodes + 1, max(nodes - 1, 0), TRIED_NODES, TRIED_NODES,
                         rng.randint(0, nodes), rng.choice((0, 1, 2))))
    room = rng.choice((sets, sets, sets + 1, max(sets - 1, 0), 16, 16, 16,
                       rng.choice((0, 1, 2, 256))))
    work = rng.choice((WORK_NUMBERS, WORK_NUMBERS, WORK_NUMBERS + 1, 20000))
    return faulty_means(rng, budget, room, work) if rng.random() < 0.06 else (budget, room, work)


def faulty_means(rng, budget, room, work):
    """Means over a limit, one or several."""
    faults = rng.randint(1, 7)
    return (
        rng.choice((1_000_001, (1 << 32) - 1)) if faults & 1 else budget,
        rng.choice((1025, 1100)) if faults & 2 else room,
        rng.choice((0, 1, WORK_NUMBERS - 1)) if faults & 4 else work,
    )


def book_image(rng):
    """A book to search and its image; sometimes an image that may be refused."""
    if rng.random() < 0.2:
        unsure = image(rng)
        book = read(unsure)
        return (book if isinstance(book, Book) else Book(1, 0)), unsure
    book = searched_book(rng)
    return book, encode(book)


def list_case(rng):
    book, packed = book_image(rng)
    return pack_list(packed, *means(rng, book))


def some_set(rng, bits):
    """A set over so many abducibles: any, a sparse one, or one with the highest."""
    any_set = rng.getrandbits(bits)
    return rng.choice((any_set, any_set & rng.getrandbits(bits), any_set | 1 << bits - 1))


def some_list(rng, bits):
    length = pick(rng, ((3, 0), (10, 3), (10, 10), (5, 40), (0.3, 1024), (0.2, 1025)))
    count = length if length > 1000 else rng.randint(0, length)
    found = [some_set(rng, bits) for _ in range(count)]
    return found + [rng.choice(found)] * rng.randrange(3) if 0 < count < 1000 else found


def join_case(rng):
    bits = rng.choice((2, 4, 6, 8, 12, 20, 64, 64))
    left, right = some_list(rng, bits), some_list(rng, bits)
    if rng.random() < 0.3 and len(left) < 1000:
        right = right[:50] + left
    exact = len(smallest(left + right)) if len(left) + len(right) < 500 else 1024
    room = rng.choice((exact, exact, exact + 1, max(exact - 1, 0), 30, 0, rng.choice((1024, 1025, 1100))))
    return pack_join(left, right, min(room, 1100))


CASES = {1: read_case, 2: judge_case, 3: list_case, 5: join_case}
