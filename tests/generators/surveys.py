"""Seeded generators of the cases of the cleaner: survey-like books, what a group observed, records sound and damaged (paper 02, A4).

Written from the specification alone; shares no code with the engine.
Every function takes a random.Random, so a seed gives the same cases again.
"""

from tests.generators.asked import about, aside_book
from tests.generators.images import (TRIED_NODES, book_image, choice_book, clauses_limit, faulty_means, mostly_positive, pick, searched_book,
                                     small_book, some_literal, some_literals)
from tests.implementation.answers import LONGEST_CASE_RECORD, pack_clean
from tests.implementation.cleaner import members, packed_record, with_facts
from tests.implementation.reader import Book, Clause, Constraint, encode
from tests.implementation.search import WORK_NUMBERS, explore

MOST_OBSERVED = 32
ALL = (1 << 64) - 1
FEW_NODES = 300  # a search that may be run for each of 64 hypotheses


# Books.

def survey_book(rng):
    """Objects are assumed, signs are observed, causes follow: each sign asks for a cause, some keep an object away, some come with one."""
    objects, signs, causes = rng.randint(1, 6), rng.randint(1, 5), rng.randint(0, 3)
    first_cause = objects + signs
    atoms = first_cause + causes
    clauses = [Clause(cause, mostly_positive(rng, first_cause, rng.choice((1, 1, 2)))) for cause in range(first_cause, atoms)
               for _ in range(rng.randint(1, 3))]
    clauses += [Clause(sign, mostly_positive(rng, objects, rng.choice((1, 1, 2)))) for sign in range(objects, first_cause)
                if rng.randrange(4) == 0]
    rng.shuffle(clauses)
    constraints = [asking(rng, sign, objects, first_cause, atoms) for sign in range(objects, first_cause) if rng.randrange(5)]
    constraints += [rng.choice((apart, apart, together, excluding))(rng, objects, first_cause) for _ in range(rng.randrange(6))]
    rng.shuffle(constraints)
    goal = tuple(2 * rng.randrange(objects, atoms) for _ in range(rng.choice((0, 0, 0, 1))))
    return Book(atoms, objects, goal, tuple(clauses), tuple(constraints))


def asking(rng, sign, objects, first_cause, atoms):
    """Where the sign was seen there is one of these causes."""
    causes = list(range(objects)) + list(range(first_cause, atoms))
    alternatives = tuple(tuple(2 * rng.choice(causes) for _ in range(rng.choice((1, 1, 1, 2)))) for _ in range(rng.randint(1, 3)))
    return Constraint((2 * sign,), alternatives)


def apart(rng, objects, first_cause):
    """Never this object where the sign was seen, or where it was not."""
    return Constraint((some_literal(rng, range(objects, first_cause)), 2 * rng.randrange(objects)))


def together(rng, objects, first_cause):
    """With this object the sign is seen."""
    return Constraint((2 * rng.randrange(objects),), ((2 * rng.randrange(objects, first_cause),),))


def excluding(rng, objects, first_cause):
    """Never these two objects; or never this one."""
    return Constraint((2 * rng.randrange(objects), 2 * rng.randrange(objects)))


def nearly_full(rng):
    """A book with so many clauses that a record takes them to 512 or just past it, or not so far."""
    book = clauses_limit(rng, 0)
    return Book(book.atoms, book.abducibles, some_literals(rng, range(1, book.atoms), rng.choice((0, 0, 1))),
                book.clauses[rng.choice((0, 1, 2, rng.randint(0, 34), 31, 32, 33)):], book.constraints)


def cleaned_image(rng):
    """A book and its image; sometimes an image that may be refused."""
    if rng.random() < 0.12:
        return book_image(rng)
    book = pick(rng, ((10, survey_book), (3, aside_book), (2, small_book), (2, choice_book), (0.7, searched_book), (0.8, nearly_full)))(rng)
    return book, encode(book)


# What is observed.

def some_observed(rng, book):
    """Defined atoms, some of them twice; in some cases one that is abducible or unknown."""
    defined = range(book.abducibles, book.atoms)
    count = pick(rng, ((2, 0), (4, 1), (4, 2), (3, 3), (2, 6), (0.5, MOST_OBSERVED)))
    observed = [rng.choice(defined) for _ in range(count)] if defined else []
    if rng.random() < 0.06:
        unknown = (0, book.abducibles - 1, book.atoms, book.atoms, 2 * book.atoms, 256, 65535)
        observed.insert(rng.randint(0, len(observed)), rng.choice(unknown) % 65536)
    return observed[:MOST_OBSERVED]


def to_the_limit(rng, book):
    """So many of its atoms that the clauses are about 512."""
    count = max(0, min(MOST_OBSERVED, 512 - len(book.clauses) + rng.choice((-1, 0, 0, 1))))
    return [rng.randrange(book.abducibles, book.atoms) for _ in range(count)]


def some_record(rng, observed):
    """A record, in some cases damaged."""
    record = packed_record(rng.choice((0, 1, 7, rng.randrange(65536))), observed)
    return damaged_record(rng, record)[:LONGEST_CASE_RECORD] if rng.random() < 0.09 else record


def damaged_record(rng, record):
    return rng.choice((version_changed, length_changed, bytes_changed, length_kept, longer, any_bytes))(rng, record)


def version_changed(rng, record):
    return bytes([rng.choice((0, 2, 3, 129, 255))]) + record[1:]


def length_changed(rng, record):
    """Another length before the same bytes."""
    length = len(record) - 3
    put = rng.choice((0, 1, 2, length - 1, length + 1, length + 2, length - 2, length + 3, length // 2, 66, 68, length + 256, 65535))
    return record[:1] + (put % 65536).to_bytes(2, "big") + record[3:]


def length_kept(rng, record):
    """The record cut or with bytes behind it, its length as it was."""
    return rng.choice((record[:rng.randrange(len(record))], record[:-1], record + rng.randbytes(rng.choice((1, 2, 4)))))


def bytes_changed(rng, record):
    """Other bytes behind a length that is theirs: odd, too few or too many."""
    count = rng.choice((0, 1, 3, 5, 65, 67, 68, 70, 258, 996, 997))
    rest = (record[3:] * count)[:count]
    return record[:1] + count.to_bytes(2, "big") + rest


def longer(rng, record):
    """More atoms than a record may have."""
    count = rng.choice((33, 34, 64))
    fields = (record[3:5], *((record[5:7] or b"\0\5"),) * count)
    return record[:1] + (2 * len(fields)).to_bytes(2, "big") + b"".join(fields)


def any_bytes(rng, record):
    return rng.randbytes(rng.choice((0, 1, 2, 3, 5, 7))) if rng.random() < 0.7 else record[::-1]


# Hypotheses, budget and room.

def ruled_out(book):
    """The abducibles that no explaining set has, as far as they are tried."""
    if not explore(book, TRIED_NODES, 1024).kept:
        return []
    tried = ((h, explore(book, TRIED_NODES, 0, h)) for h in range(book.abducibles))
    return [h for h, search in tried if not search.refusal and not search.kept]


def some_hypotheses(rng, book, nodes):
    """A set to keep safe: few or all, often those ruled out, alone or with another; in some cases none, or one beyond B."""
    if rng.random() < 0.07:
        beyond = 1 << rng.randint(min(book.abducibles, 63), 63)
        return rng.choice((0, beyond, beyond | rng.getrandbits(64), ALL))
    every = (1 << book.abducibles) - 1
    few = sum(1 << h for h in {rng.randrange(book.abducibles) for _ in range(rng.choice((1, 1, 2, 3)))}) if every else 1
    if nodes > FEW_NODES:
        return few
    out = sum(1 << h for h in ruled_out(book)) if book.abducibles <= 16 else 0
    return pick(rng, ((6, out), (2, out & few), (2, out | few), (2, few), (3, every), (2, every & rng.getrandbits(64)))) or few


def group_means(rng, book, hypotheses, first):
    """Budget, room and work length for the group's book, often about what one of its searches needs."""
    budget, sets = TRIED_NODES, len(first.kept)
    if rng.random() < 0.6:
        named = [h for h in members(hypotheses) if h < book.abducibles]
        needs = [first.nodes] + [explore(book, TRIED_NODES, 0, h).nodes for h in rng.sample(named, min(3, len(named)))]
        budget = rng.choice((max(needs), max(needs), max(needs) - 1, first.nodes, about(rng, rng.choice(needs))))
    room = pick(rng, ((3, sets), (1, sets + 1), (8, 16), (1, max(sets - 1, 0)), (1, rng.choice((0, 1, 2, 64)))))
    work = rng.choice((WORK_NUMBERS, WORK_NUMBERS, WORK_NUMBERS + 1, 20000))
    return faulty_means(rng, budget, room, work) if rng.random() < 0.05 else (budget, room, work)


# Cases.

def some_group(rng):
    """An image, what is observed, and the group's book; mostly one that something explains."""
    for _ in range(rng.choice((1, 4, 4))):
        book, packed = cleaned_image(rng)
        full = len(book.clauses) > 470 and book.abducibles < book.atoms
        observed = to_the_limit(rng, book) if full else some_observed(rng, book)
        group = with_facts(book, [atom for atom in observed if book.abducibles <= atom < book.atoms])
        if explore(group, TRIED_NODES, 1024).kept:
            break
    return packed, observed, group


def clean_case(rng):
    packed, observed, group = some_group(rng)
    first = explore(group, TRIED_NODES, 1024)
    hypotheses = some_hypotheses(rng, group, first.nodes)
    means = group_means(rng, group, hypotheses, first)
    return pack_clean(packed, some_record(rng, observed), hypotheses, *means)


CASES = {7: clean_case}
