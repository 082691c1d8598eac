"""Places of refusals once more, each found another way than the reader finds it (paper 02, A2).

Written from the specification alone; shares no code with the engine, and none with the reader beside it but the types of a book.
"""

HEADER = 5


# 1 to 8, field by field with names.

def first_fault(image):
    """(number, place, name of the field) of the first fault of 1 to 8, or None. A field that is not there is `missing ..`.

    Every field has two bytes, so the k-th one stands at 5 + 2k, whatever it is; and what it is, `fields_asked` tells.
    """
    if len(image) < HEADER:
        return 1, len(image), "image"
    if image[:1] != b"\1":
        return 2, 0, "version"
    if image[1:HEADER] != (len(image) - HEADER).to_bytes(4, "big"):
        return 3, 1, "length"
    values = [int.from_bytes(image[at:at + 2], "big") for at in range(HEADER, len(image) - 1, 2)]
    asking = fields_asked()
    name, number_of = next(asking)
    for k, value in enumerate(values):
        number = number_of(value, len(values) - k - 1)
        if number:
            return number, HEADER + 2 * k, name
        try:
            name, number_of = asking.send(value)
        except StopIteration:
            end = HEADER + 2 * k + 2
            return None if end == len(image) else (4, end, "left over")
    return 4, HEADER + 2 * len(values), f"missing {name}"


def most(limit):
    """The test of a count with a limit."""
    return lambda value, left: 5 if value > limit else 0


def fields_asked():
    """The fields of a book in their order: of each its name, and the number of its fault for a value with so many fields behind it.

    It is sent the value of each.
    """
    atoms = yield "A", lambda value, left: 5 if value == 0 or value > 256 else 0
    abducibles = yield "B", lambda value, left: 5 if value > 64 or value > atoms else 0

    def literal(value, left):
        return 6 if value >= 2 * atoms else 0

    def head(value, left):
        return 6 if value >= atoms else 7 if value < abducibles else 0

    def record(value, left):
        return 0 if value in range(2, 2 * left + 1, 2) else 4

    for _ in range((yield "goal count", most(16))):
        yield "goal literal", literal

    room = 1024  # for body literals
    for _ in range((yield "clause count", most(512))):
        length = yield "clause length", lambda value, left: record(value, left) or (5 if value > 2 * room + 2 else 0)
        yield "head", head
        for _ in range(length // 2 - 1):
            yield "body literal", literal
            room -= 1

    room = 1024  # for literals of constraints
    for _ in range((yield "constraint count", most(128))):
        inside = (yield "constraint length", record) // 2 - 1  # how many fields of the record are behind the one that is asked
        count = yield "condition count", lambda value, left: 4 if value > inside else 5 if value > room else 0
        for _ in range(count):
            yield "condition literal", literal
        room, inside = room - count, inside - count
        while inside:
            inside -= 1
            count = yield "alternative count", lambda value, left: 8 if value == 0 else 4 if value > inside else 5 if value > room else 0
            for _ in range(count):
                yield "alternative literal", literal
            room, inside = room - count, inside - count


# All faults there are, by number and the name that `first_fault` gives. No field of a record can be missing: the record's length shows it.
FAULTS = {
    (1, "image"), (2, "version"), (3, "length"),
    (4, "missing A"), (4, "missing B"), (4, "missing goal count"), (4, "missing goal literal"), (4, "missing clause count"),
    (4, "missing clause length"), (4, "missing constraint count"), (4, "missing constraint length"),
    (4, "clause length"), (4, "constraint length"), (4, "condition count"), (4, "alternative count"), (4, "left over"),
    (5, "A"), (5, "B"), (5, "goal count"), (5, "clause count"), (5, "clause length"), (5, "constraint count"), (5, "condition count"),
    (5, "alternative count"),
    (6, "goal literal"), (6, "head"), (6, "body literal"), (6, "condition literal"), (6, "alternative literal"),
    (7, "head"), (8, "alternative count"),
}


# 4 to 8, by numbers alone.

def fillings(rng, count):
    """Some ways to fill so many bytes."""
    for field in (b"\0\0", b"\0\1", b"\0\2", b"\xff\xff"):
        yield (field * (count // 2 + 1))[:count]
        yield (field + bytes(count))[:count]
    yield rng.randbytes(count)
    yield bytes(byte & 3 for byte in rng.randbytes(count))


def numbers_behind(rng, image, length, number_of):
    """The numbers of images as long as this one that share so many bytes with it."""
    return {number_of(image[:length] + filling) for filling in fillings(rng, len(image) - length)}


def settles(rng, image, number, place, number_of):
    """Whether the field at this place is what settles this number: with it the number is the same whatever stands behind, without it not.

    So the place of 5 to 8 follows from numbers alone. Of a 4 the image's end may have settled it before the field is reached.
    """
    if numbers_behind(rng, image, place + 2, number_of) != {number}:
        return False
    return number == 4 or numbers_behind(rng, image, place, number_of) != {number}


# 9.

def below(book):
    """For each atom the atoms in the bodies of its clauses."""
    found = {}
    for clause in book.clauses:
        for literal in clause.body:
            found.setdefault(clause.head, set()).add(literal // 2)
    return found


def comes_back(book, atom):
    """Whether a path from this atom leads back to it: every path without an atom twice is gone. For few atoms only."""
    down = below(book)
    paths = [(atom,)]
    while paths:
        path = paths.pop()
        for following in down.get(path[-1], ()):
            if following == atom:
                return True
            if following not in path:
                paths.append(path + (following,))
    return False


def comes_back_in_steps(book, atom):
    """The same, by where 1, 2, 3 steps and so on lead, as many as there are atoms. For any book."""
    down = below(book)
    there = {atom}
    for _ in range(book.atoms):
        there = set().union(*(down.get(each, ()) for each in there))
        if atom in there:
            return True
    return False


def loop_place(book, on_loop):
    """The record length of the first clause whose head is on a loop, or None; fields are counted from the front."""
    fields = 4 + len(book.goal)  # A, B and the counts of goal and clauses
    for clause in book.clauses:
        if on_loop(book, clause.head):
            return HEADER + 2 * fields
        fields += 2 + len(clause.body)
    return None
