"""The cleaner once more, each part found another way than the cleaner finds it (paper 02, A4).

Written from the specification alone; shares no code with the cleaner beside it, nor with the search, but the types of a book.
"""

from tests.drivers import tree
from tests.implementation.judge import explains
from tests.implementation.reader import Book, read


def field(image, at):
    return int.from_bytes(image[at:at + 2], "big")


def group_image(image, observed):
    """The book's bytes with length and clause count changed, and four bytes a fact put in behind the last clause."""
    count_at = 11 + 2 * field(image, 9)
    end = count_at + 2
    for _ in range(field(image, count_at)):
        end += 2 + field(image, end)
    facts = b"".join(b"\0\2" + atom.to_bytes(2, "big") for atom in observed)
    length = int.from_bytes(image[1:5], "big") + len(facts)
    count = field(image, count_at) + len(observed)
    return image[:1] + length.to_bytes(4, "big") + image[5:count_at] + count.to_bytes(2, "big") + image[count_at + 2:end] + facts + image[end:]


def is_record(record):
    """Whether a record is well formed: 5, 7 and on to 69 bytes, of which the first three are known."""
    return len(record) in range(5, 70, 2) and record[:3] == bytes([1, 0, len(record) - 3])


def atoms_of(record):
    return [field(record, at) for at in range(5, len(record), 2)]


def first_wrong(image, record, hypotheses, budget, room, work_length):
    """The number of the first refusal before any search, 0 if there is none: a list of what may be wrong, in A4's order."""
    book = read(image)
    if not isinstance(book, Book):
        return book.number
    fine = is_record(record)
    atoms = atoms_of(record) if fine else []
    wrong = [
        (40, not hypotheses), (41, not fine), (42, set(atoms) - set(range(book.abducibles, book.atoms))), (5, len(book.clauses) + len(atoms) > 512),
        (20, room > 1024), (21, work_length < 16384), (22, budget > 1_000_000), (23, hypotheses >= 1 << book.abducibles),
    ]
    return next((number for number, is_wrong in wrong if is_wrong), 0)


def explaining(book):
    """The explaining sets of any size, by trying every set."""
    return [s for s in range(1 << book.abducibles) if explains(book, s)]


def may_go(sets, hypotheses):
    """Whether a group is to be deleted: some set explains and no explaining set has any of the hypotheses."""
    return bool(sets) and not any(s & hypotheses for s in sets)


def nodes_needed(book, hypotheses):
    """The least budget that no verdict on these is refused for, by the whole trees; and the sets met by the list's."""
    first, met = tree.listed(book)
    unsettled = [h for h in hypotheses if met and not any(s >> h & 1 for s in least(met))]
    return max([first] + [tree.asked(book, h)[1] for h in unsettled]), met


def least(sets):
    return {s for s in sets if not any(t != s and t & s == t for t in sets)}
