"""The search tree once more, node by node as the rules of paper 01, 5 word it, and the second search by two ways (paper 02, A3).

Written from the specification alone; shares no code with the search beside it but the types of a book. For small trees only.
A node is (agenda, T, F): a tuple of tasks and two sets of atoms. A task is its kind and what it is about.
"""

SUCCESS = ()


def wants(literals):
    """A task for each of these literals."""
    return tuple(("false" if literal % 2 else "true", literal // 2) for literal in literals)


def opposites(literals):
    """For each of these literals the one task of its opposite."""
    return [wants([literal + 1 - 2 * (literal % 2)]) for literal in literals]


def root(book, ahead=()):
    """The root, with these tasks ahead of the goal."""
    return (*ahead, *wants(book.goal), *(("constraint", each) for each in book.constraints)), frozenset(), frozenset()


def children(book, node):
    """The children of a node, in order."""
    agenda, true, false = node
    if agenda == SUCCESS:
        return []
    (kind, about), rest = agenda[0], agenda[1:]
    if kind == "break":
        return [(task + rest, true, false) for task in opposites(about.body)]
    if kind == "constraint":
        ways = opposites(about.conditions) + [wants(alternative) for alternative in about.alternatives]
        return [(way + rest, true, false) for way in ways]
    if about in (false if kind == "true" else true):
        return []
    if about in (true if kind == "true" else false):
        return [(rest, true, false)]
    clauses = [clause for clause in book.clauses if clause.head == about]
    if kind == "true":
        bodies = [()] if about < book.abducibles else [wants(clause.body) for clause in clauses]
        return [(body + rest, true | {about}, false) for body in bodies]
    return [(tuple(("break", clause) for clause in clauses) + rest, true, false | {about})]


def visited(book, node, dead=None):
    """This node and everything below it, in order; nothing below a node whose first task is the dead one."""
    yield node
    if node[0][:1] != (dead,):
        for child in children(book, node):
            yield from visited(book, child, dead)


def listed(book):
    """The number of nodes of the whole tree, and the set at each success."""
    nodes = list(visited(book, root(book)))
    return len(nodes), [sum(1 << p for p in true if p < book.abducibles) for agenda, true, _ in nodes if agenda == SUCCESS]


def to_first_success(nodes):
    """Whether there is a success among these nodes, and how many they are up to the first one, itself included."""
    count = 0
    for agenda, _, _ in nodes:
        count += 1
        if agenda == SUCCESS:
            return True, count
    return False, count


def asked(book, hypothesis):
    """The second search: whether it meets a success, and its nodes up to there."""
    return to_first_success(visited(book, root(book, (("true", hypothesis),))))


def asked_by_cutting(book, hypothesis):
    """The same with nothing ahead of the goal: of the book's own tree what is not below a want of the hypothesis false; and the root."""
    success, count = to_first_success(visited(book, root(book), ("false", hypothesis)))
    return success, 1 + count
