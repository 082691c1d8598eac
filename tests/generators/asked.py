"""Seeded generators of the cases of the verdict and of the second search: books with hypotheses in no smallest set, and budgets about
the node numbers of both searches (paper 02, A3).

Written from the specification alone; shares no code with the engine.
Every function takes a random.Random, so a seed gives the same cases again.
"""

from tests.generators.images import (TRIED_NODES, book_image, choice_book, faulty_means, means, pick, searched_book, small_book, some_literal,
                                     some_literals, with_clauses)
from tests.implementation.answers import pack_admits, pack_verdict
from tests.implementation.reader import MOST_ABDUCIBLES, MOST_ATOMS, Book, Clause, Constraint, encode, read
from tests.implementation.search import WORK_NUMBERS, explore


# Books with an abducible beside those that explain.

def with_abducible(book, number):
    """The same book with one more abducible, of this number, which nothing mentions; later atoms are one up."""
    def moved(literals):
        return tuple(literal + 2 if literal // 2 >= number else literal for literal in literals)
    clauses = tuple(Clause(clause.head + 1, moved(clause.body)) for clause in book.clauses)
    constraints = tuple(Constraint(moved(each.conditions), tuple(map(moved, each.alternatives))) for each in book.constraints)
    return Book(book.atoms + 1, book.abducibles + 1, moved(book.goal), clauses, constraints)


def put_in(rng, literals, literal):
    """These literals with one more, anywhere."""
    place = rng.randint(0, len(literals))
    return literals[:place] + (literal,) + literals[place:]


def longer_clause(rng, book, number):
    """A clause as one of the book's, with this abducible in its body: what kelp explains, kelp with rock does too."""
    if not book.clauses:
        return book
    clause = rng.choice(book.clauses)
    literal = 2 * number + (rng.randrange(5) == 0)
    return with_clauses(rng, book, [Clause(clause.head, put_in(rng, clause.body, literal))])


def naming_constraint(rng, book, number):
    """A constraint that has this abducible as a condition, mostly: it is ruled out, or asks for others, or keeps others away."""
    others = some_literals(rng, range(book.atoms), rng.choice((0, 0, 0, 1, 1, 2)))
    conditions = put_in(rng, others, 2 * number + (rng.randrange(6) == 0))
    alternatives = tuple(some_literals(rng, range(book.atoms), rng.choice((1, 1, 2))) for _ in range(rng.choice((0, 0, 1, 1, 2))))
    return with_constraint(rng, book, Constraint(conditions, alternatives))


def offered_constraint(rng, book, number):
    """A constraint with an alternative that names this abducible, behind others or before them."""
    alternatives = tuple(some_literals(rng, range(book.atoms), rng.choice((1, 1, 2))) for _ in range(rng.choice((1, 1, 2))))
    offered = put_in(rng, some_literals(rng, range(book.atoms), rng.randrange(2)), 2 * number + rng.randrange(2))
    conditions = some_literals(rng, range(book.atoms), rng.randrange(2))
    return with_constraint(rng, book, Constraint(conditions, put_in(rng, alternatives, offered)))


def with_constraint(rng, book, constraint):
    return Book(book.atoms, book.abducibles, book.goal, book.clauses, put_in(rng, book.constraints, constraint))


def aside_book(rng):
    """A book with one or two abducibles more than it needs: not mentioned, in longer clauses, in constraints, or unwanted."""
    book = pick(rng, ((4, small_book), (3, choice_book), (3, path_book), (0.3, searched_book)))(rng)
    for _ in range(rng.choice((1, 1, 2))):
        if book.abducibles < MOST_ABDUCIBLES and book.atoms < MOST_ATOMS:
            number = rng.randint(0, book.abducibles)
            book = with_abducible(book, number)
            for _ in range(rng.choice((0, 1, 1, 2, 3))):
                book = pick(rng, ((3, longer_clause), (4, naming_constraint), (2, offered_constraint)))(rng, book, number)
    return book if isinstance(read(encode(book)), Book) else small_book(rng)  # a rare large one may have passed a limit


def path_book(rng):
    """One success, and it is the last node: each atom has one clause that can be true, behind some that cannot. A second search for an
    abducible that nothing denies visits one node more than the first, and no search visits more than that."""
    abducibles = rng.randint(1, 6)
    atoms = abducibles + rng.randint(2, 6)
    never = atoms - 1  # an atom without clauses
    usable = list(range(abducibles))
    clauses = []
    for head in range(abducibles, never):
        for _ in range(rng.choice((0, 0, 1, 2))):
            clauses.append(Clause(head, put_in(rng, positive(rng, usable, rng.randrange(3)), 2 * never)))
        clauses.append(Clause(head, positive(rng, usable, rng.randint(0, 3))))
        usable.append(head)
    goal = positive(rng, usable, rng.randint(0, 4))
    constraints = tuple(
        Constraint((), ((2 * never,),) * rng.randrange(2) + (positive(rng, usable, rng.randint(1, 3)),)) for _ in range(rng.choice((0, 0, 1, 2)))
    )
    book = Book(atoms, abducibles, goal, tuple(clauses), constraints)
    if rng.random() < 0.3:  # a want that may be in vain
        return with_constraint(rng, book, Constraint((), ((some_literal(rng, range(atoms)),),)))
    return book


def positive(rng, atoms, count):
    return tuple(2 * rng.choice(atoms) for _ in range(count))


# Cases.

def hypothesis(rng, book):
    """An abducible, often one in a smallest set or one in none; sometimes one beyond B."""
    if rng.random() < 0.05 or book.abducibles == 0:
        return rng.choice((book.abducibles, book.abducibles + 1, 64, (1 << 32) - 1))
    kept = explore(book, TRIED_NODES, 1024).kept
    some = rng.choice(kept) if kept else 0
    inside = [h for h in range(book.abducibles) if some >> h & 1]
    outside = [h for h in range(book.abducibles) if not any(s >> h & 1 for s in kept)]
    return rng.choice(pick(rng, ((3, inside), (4, outside), (2, ()))) or range(book.abducibles))


def node_numbers(book, number):
    """The node numbers of both searches, as far as they are tried."""
    first = explore(book, TRIED_NODES, 1024).nodes
    return first, explore(book, TRIED_NODES, 0, number).nodes if number < book.abducibles else first


def about(rng, nodes):
    """A budget about this node number."""
    return rng.choice((nodes, nodes, nodes + 1, max(nodes - 1, 0), max(nodes - 1, 0), rng.randint(0, nodes)))


def asked_image(rng):
    """A book and its image, made for the second search or not; mostly one that something explains."""
    if rng.random() < 0.35:
        return book_image(rng)
    for _ in range(rng.choice((1, 4, 4))):
        book = aside_book(rng)
        if explore(book, TRIED_NODES, 1024).kept:
            break
    return book, encode(book)


def verdict_case(rng):
    book, packed = asked_image(rng)
    number = hypothesis(rng, book)
    budget, room, work = means(rng, book)
    if budget <= TRIED_NODES and rng.random() < 0.7:
        first, second = node_numbers(book, number)
        budget = rng.choice((TRIED_NODES, TRIED_NODES, first, max(first, second), about(rng, first), about(rng, second)))
        room = max(room, rng.choice((0, 8, 16)))
    return pack_verdict(packed, number, budget, room, work)


def admits_case(rng):
    book, packed = asked_image(rng)
    number = hypothesis(rng, book)
    first, second = node_numbers(book, number)
    budget = rng.choice((TRIED_NODES, about(rng, second), about(rng, second), about(rng, second), about(rng, first)))
    work = rng.choice((WORK_NUMBERS, WORK_NUMBERS, WORK_NUMBERS + 1, 20000))
    if rng.random() < 0.06:
        budget, _, work = faulty_means(rng, budget, 0, work)
    return pack_admits(packed, number, budget, work)


CASES = {4: verdict_case, 13: admits_case}
