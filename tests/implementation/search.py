"""The lister of all smallest explanations, the second search for one hypothesis, and the verdict on it (paper 01, 5 and 6; paper 02, A3).

Written from the specification alone; shares no code with the engine.

A node is (agenda, T, F). The agenda is a linked list: None, or (task, rest).
T and F are sets of atoms as numbers: atom p is 2^p. A task is either a want,
which is a literal, or a choice: a tuple of lists of wants, one list per child.
A break and a constraint are choices.
"""

from dataclasses import dataclass, replace

from tests.implementation.judge import explains
from tests.implementation.reader import Book, Refusal, read

MOST_ENTRIES = 1024
WORK_NUMBERS = 16384
MOST_BUDGET = 1_000_000
LIST_BEFORE = 7  # what every list entry holds before a call


@dataclass
class Result:
    """What a search answers and leaves: answer, node number, list, work area; and the place of a book's own fault."""

    answer: tuple
    nodes: int
    entries: list
    work: str
    place: int | None = None

    def told(self):
        """The words of its answer: with the node number, and with the place if it has one."""
        place = () if self.place is None else ("at", self.place)
        return " ".join(map(str, (*self.answer, "nodes", self.nodes, *place)))


@dataclass
class Search:
    """How a search went: its refusal or 0, nodes visited, the longest path of them, kept sets."""

    refusal: int
    nodes: int
    longest: int
    kept: list


def listing(image, budget, room, work_length):
    """The lister: ('listed', K) or ('refused', number), and what it leaves."""
    book, refusal = started(image, budget, room, work_length)
    if refusal:
        return untouched(refusal, room)
    return searched(book, budget, room)


def admits(image, hypothesis, budget, work_length):
    """Whether an explaining set has the hypothesis: ('admitted',), ('excluded',) or ('refused', number). It has no list."""
    book, refusal = started(image, budget, 0, work_length, hypothesis)
    if refusal:
        return untouched(refusal, 0)
    return searched_again(book, budget, hypothesis)


def verdict(image, hypothesis, budget, room, work_length):
    """The verdict: a word as ('needed',), or ('refused', number)."""
    book, refusal = started(image, budget, room, work_length, hypothesis)
    if refusal:
        return untouched(refusal, room)
    first = searched(book, budget, room)
    if first.answer[0] == "refused":
        return first
    word = settled(first.entries[:first.answer[1]], hypothesis)
    if word:
        return replace(first, answer=(word,))
    second = searched_again(book, budget, hypothesis)
    nodes = first.nodes + second.nodes
    if second.answer[0] == "refused":
        return replace(second, nodes=nodes, entries=[0] * room)
    word = "possible" if second.answer == ("admitted",) else "ruled out"
    return replace(first, answer=(word,), nodes=nodes)


def settled(sets, hypothesis):
    """The verdict that follows from the smallest sets alone; None if there is a set and none has the hypothesis."""
    having = sum(s >> hypothesis & 1 for s in sets)
    if not sets:
        return "unexplained"
    if having == len(sets):
        return "needed"
    return "possible" if having else None


def started(image, budget, room, work_length, hypothesis=None):
    """(book, None), or (None, refusal) for a refusal 1 to 22, and 23 where a hypothesis is asked."""
    book = read(image)
    if not isinstance(book, Book):
        return None, book
    if room > MOST_ENTRIES:
        return None, Refusal(20)
    if work_length < WORK_NUMBERS:
        return None, Refusal(21)
    if budget > MOST_BUDGET:
        return None, Refusal(22)
    if hypothesis is not None and hypothesis >= book.abducibles:
        return None, Refusal(23)
    return book, None


def untouched(refusal, room):
    """A refusal before any search: nothing written, no node."""
    return Result(("refused", refusal.number), 0, [LIST_BEFORE] * room, "untouched", refusal.place)


def searched(book, budget, room):
    """A search, finished or not, with the list it leaves."""
    search = explore(book, budget, room)
    if search.refusal:
        return Result(("refused", search.refusal), search.nodes, [0] * room, "clean")
    entries = in_order(search.kept) + [0] * (room - len(search.kept))
    return Result(("listed", len(search.kept)), search.nodes, entries, "clean")


def searched_again(book, budget, hypothesis):
    """The second search, finished or not; it needs no list."""
    search = explore(book, budget, 0, hypothesis)
    answer = ("refused", search.refusal) if search.refusal else ("admitted",) if search.kept else ("excluded",)
    return Result(answer, search.nodes, [], "clean")


def in_order(sets):
    """Sets by number of members, then by value as a number."""
    return sorted(sets, key=lambda s: (s.bit_count(), s))


def opposite(literal):
    return literal ^ 1


def break_task(clause):
    """Break c: a child per body literal, its opposite wanted."""
    return tuple((opposite(literal),) for literal in clause.body)


def constraint_task(constraint):
    """A child per condition literal, its opposite wanted; then one per alternative."""
    denied = tuple((opposite(literal),) for literal in constraint.conditions)
    return denied + constraint.alternatives


def in_front(tasks, agenda):
    """The agenda with these tasks, in order, in front of it."""
    for task in reversed(tasks):
        agenda = (task, agenda)
    return agenda


def explore(book, budget, room, hypothesis=None):
    """Visit the search tree. A hypothesis is wanted true ahead of the goal, and the first success, which alone is kept, ends the search."""
    clauses = [[c for c in book.clauses if c.head == p] for p in range(book.atoms)]
    bodies = [[c.body for c in of_p] for of_p in clauses]
    breaks = [[break_task(c) for c in of_p] for of_p in clauses]
    abducible = book.abducibles
    all_abducibles = (1 << abducible) - 1
    ahead = () if hypothesis is None else (2 * hypothesis,)
    root = in_front(ahead + book.goal + tuple(map(constraint_task, book.constraints)), None)

    kept = []
    nodes = longest = 0
    due = [(root, 0, 0, 1)]  # the next node due is the last; with each the nodes from the root to it
    while due:
        if nodes == budget:
            return Search(30, nodes, longest, [])
        agenda, true, false, path = due.pop()
        nodes += 1
        longest = max(longest, path)
        if agenda is None:
            if ahead:
                return Search(0, nodes, longest, [true & all_abducibles])
            kept = keep(kept, true & all_abducibles)
            if len(kept) > room:
                return Search(31, nodes, longest, [])
            continue
        task, rest = agenda
        if type(task) is tuple:
            for wants in reversed(task):
                due.append((in_front(wants, rest), true, false, path + 1))
            continue
        p = task >> 1
        atom = 1 << p
        if task & 1 == 0:  # want p true
            if false & atom:
                continue
            if true & atom:
                due.append((rest, true, false, path + 1))
            elif p < abducible:
                due.append((rest, true | atom, false, path + 1))
            else:
                for body in reversed(bodies[p]):
                    due.append((in_front(body, rest), true | atom, false, path + 1))
        else:  # want p false
            if true & atom:
                continue
            if false & atom:
                due.append((rest, true, false, path + 1))
            elif p < abducible:
                due.append((rest, true, false | atom, path + 1))
            else:
                due.append((in_front(breaks[p], rest), true, false | atom, path + 1))
    return Search(0, nodes, longest, kept)


def keep(kept, s):
    """The kept sets after a success with s."""
    for k in kept:
        if k & s == k:
            return kept
    return [k for k in kept if k & s != s] + [s]


def explaining_by_trying(book):
    """The explaining sets, of any size, by trying every set of abducibles."""
    return [s for s in range(1 << book.abducibles) if explains(book, s)]


def smallest_of(explaining):
    """Those of these sets that have no other one of them inside, in order."""
    return in_order(
        s for s in explaining if not any(t != s and t & s == t for t in explaining)
    )
