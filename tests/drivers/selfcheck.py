"""Checks this implementation against the specification's own examples, against
trying all sets, and against itself.

Written from the specification alone; shares no code with the engine.

    python3 -m tests.drivers.selfcheck
"""

import itertools
import random
import re

from tests.stored import books
from tests.drivers import cleaning, placing, tree
from tests.drivers.shared import kind
from tests.generators import asked, groups, images, surveys, texts
from tests.implementation import text
from tests.stored import stored, stored_names, stored_text
from tests.implementation.answers import (BadCase, Cases, line, line_admits, line_clean, line_join, line_judge, line_list, line_names, line_read,
                                          line_text, line_verdict, lines, pack_admits, pack_clean, pack_judge, pack_list, pack_names, pack_read,
                                          pack_text, pack_verdict)
from tests.implementation.cleaner import begun, clean, members, packed_record, parsed, program_lines, records, with_facts
from tests.generators.images import choice_book, image, loop_book, small_book, sound_book
from tests.implementation.joiner import join
from tests.implementation.judge import explains, judge
from tests.implementation.notation import image as image_of
from tests.implementation.reader import LONGEST_IMAGE, Book, Clause, Constraint, Refusal, dependency_order, encode, framed, read
from tests.implementation.search import Result, admits, explaining_by_trying, explore, listing, smallest_of, verdict
from tests.stored.stored_read import longest

passed = 0


def check(meets, what):
    """Count one check, or stop at it."""
    global passed
    if not meets:
        raise AssertionError(what)
    passed += 1


def listed(packed, budget=100_000, room=256):
    """Answer, node number and the sets of a listing."""
    result = listing(packed, budget, room, 16384)
    count = result.answer[1] if result.answer[0] == "listed" else 0
    return result.answer, result.nodes, result.entries[:count]


def check_soundings():
    """P1 to P11 as the specification words them."""
    check(listed(books.P1, 15) == (("listed", 2), 15, [1, 2]), "P1")
    check(listed(books.P1, 14) == (("refused", 30), 14, []), "P2")
    check(listed(books.P1, 10, 1) == (("refused", 31), 10, []), "P3")
    check(listed(books.P1, 9, 1) == (("refused", 30), 9, []), "P4")
    check(listed(books.P5) == (("listed", 1), 16, [0b010]), "P5")
    check(listed(books.P6) == (("listed", 2), 8, [0b01, 0b10]), "P6")
    check(listed(books.FACT_AND_RULE) == (("listed", 2), 8, [0b01, 0b10]), "a fact and a rule")
    check(listed(books.FACT_AND_RULE_WITH_GOAL) == (("listed", 2), 8, [0b01, 0b10]), "the same with a goal")
    check(listed(books.P7) == (("listed", 1), 1, [0]), "P7")
    check(listed(books.P7, 0) == (("refused", 30), 0, []), "P7 with budget 0")
    check(listed(books.P8, room=1) == (("listed", 1), 6, [1]), "P8")
    check(listed(books.P9) == (("listed", 1), 7, [0]), "P9")
    check(listed(books.P10) == (("listed", 0), 6, []), "P10")
    check(listed(books.P11) == (("listed", 1), 7, [0]), "P11")


def check_examples():
    """The other examples of the specification."""
    p = bytes.fromhex
    check(read(p("01000000100001000000000001000400000000" + "0000")) == Refusal(9, 13), "p from p")
    check(read(p("01000000100001000000000001000400000001" + "0000")) == Refusal(9, 13), "p from not p")
    check(isinstance(read(p("010000000a01000000000000000000")), Book), "A 256")
    check(read(p("010000000a01010000000000000000")) == Refusal(5, 5), "A 257")
    check(read(b"") == Refusal(1, 0), "no bytes")
    check(read(p("0100000000")) == Refusal(4, 5), "01 00000000")
    check(len(longest()) == LONGEST_IMAGE == 8751, "the longest image's length")
    check(isinstance(read(longest()), Book), "the longest image")
    check(judge(books.P10, 1) == ("constraint", 0), "P10's {a} breaks the first constraint")
    check(judge(books.P9, 3) == ("explains",), "P9's {a,b} explains but is not smallest")
    check(judge(books.LAYERS, 1) == ("explains",), "250 layers of two mentions")
    check(join([0b011], [0b100], 2) == (("joined", 2), [0b100, 0b011]), "{2} before {0,1}")
    check(line_list(books.P1, 15, 3, 16384) == "listed 2 nodes 15 sets 1 2 0 work clean", "line of P1")
    check(line_list(books.P1, 15, 2, 1) == "refused 21 nodes 0 sets 7 7 work untouched", "line of 21")
    check(line_read(b"\1") == "refused 1 at 1", "line of a reading")
    check(line_judge(books.REFUSED[8][1], 2) == "refused 9 at 13", "line of a judgement of a loop")
    check(line_judge(books.P1, 8) == "refused 23", "line of 23")
    check(line_list(b"", 0, 1025, 0).startswith("refused 1 nodes 0 at 0 sets 7 7 "), "line of a listing of no bytes")
    check(line_list(books.REFUSED[8][1], 9, 1, 0) == "refused 9 nodes 0 at 13 sets 7 work untouched", "line of a listing of a loop")
    check(line_verdict(books.REFUSED[7][1], 9, 9, 0, 0) == "refused 8 nodes 0 at 19 sets work untouched", "line of a verdict refused for 8")
    check(line_verdict(books.P1, 3, 9, 0, 16384) == "refused 23 nodes 0 sets work untouched", "line of a verdict refused for 23")
    check(line_judge(books.P1, 4) == "constraint 0", "line of a judgement")
    check(line_verdict(books.P1, 2, 15, 2, 20000) == "ruled out nodes 29 sets 1 2 work clean", "line of a verdict")
    check(line_verdict(books.KELP, 1, 4, 2, 16384) == "possible nodes 7 sets 1 0 work clean", "kelp alone explains, rock is possible")
    check(line_verdict(books.KELP, 1, 3, 2, 16384) == "refused 30 nodes 6 sets 0 0 work clean", "the second search one node short")
    check(line_verdict(image_of("abducible a; -a a ->"), 0, 9, 1, 16384) == "possible nodes 9 sets 0 work clean", "paper 02, A6.8")
    check(line_admits(books.KELP, 1, 4, 16384) == "admitted nodes 4 work clean", "line of an admitted hypothesis")
    check(line_admits(books.P1, 2, 14, 20000) == "excluded nodes 14 work clean", "line of an excluded hypothesis")
    check(line_admits(books.P1, 2, 13, 20000) == "refused 30 nodes 13 work clean", "line of a second search's 30")
    check(line_admits(books.P1, 3, 13, 20000) == "refused 23 nodes 0 work untouched", "line of a second search refused for 23")
    check(line_admits(books.REFUSED[8][1], 0, 9, 0) == "refused 9 nodes 0 at 13 work untouched", "line of a second search of a loop")
    check(line_join([], [], 0) == "joined 0 sets", "line of an empty joining")


def check_against_trying(count):
    """Finished listings, verdicts and second searches equal trying all sets. (A second search has at most one node more than the first.)"""
    rng = random.Random(11)
    for number in range(count):
        book = (small_book, choice_book)[number % 2](rng)
        search = explore(book, 60_000, 1024)
        if search.refusal:
            continue
        nodes = search.nodes
        packed = encode(book)
        explaining = explaining_by_trying(book)
        smallest = smallest_of(explaining)
        answer, reported, sets = listed(packed, nodes, 1024)
        check((answer, reported, sets) == (("listed", len(smallest)), nodes, smallest), book)
        check(listed(packed, nodes - 1, 1024) == (("refused", 30), nodes - 1, []), book)
        check(all(explains(book, s) for s in smallest), book)
        for h in range(book.abducibles):
            check(verdict(packed, h, nodes + 1, 1024, 16384).answer == (expected_verdict(explaining, h),), (book, h))
            check(admits(packed, h, nodes + 1, 16384).answer == (expected_answer(explaining, h),), (book, h))


def expected_verdict(explaining, h):
    """The verdict by all explaining sets, of any size."""
    having = [s for s in explaining if s & 1 << h]
    if not explaining:
        return "unexplained"
    return "needed" if having == explaining else "possible" if having else "ruled out"


def expected_answer(explaining, h):
    return "admitted" if any(s & 1 << h for s in explaining) else "excluded"


def check_both_searches(count):
    """Verdicts and second searches of every book of a small kind and of random ones, in full: by all sets, and by the tree told otherwise."""
    rng = random.Random(19)
    for book in every_small_book():
        check_asked(book, (-1, 0))
    met = 0
    while met < count:
        book = (asked.aside_book, asked.aside_book, small_book, choice_book)[met % 4](rng)
        if book.abducibles <= 10 and not explore(book, 1000, 1024).refusal:
            check_asked(book, (-1, 0, 1))
            met += 1


def every_small_book():
    """Abducibles 0 and 1, atom 2 with up to two clauses, and perhaps a constraint."""
    bodies = ((), (0,), (1,), (2,), (3,), (0, 2), (0, 3), (1, 2), (1, 3))
    clauses = [()] + [(Clause(2, body),) for body in bodies] + [(Clause(2, one), Clause(2, two)) for one in bodies for two in bodies]
    conditions = ((), (0,), (5,), (1, 2))
    alternatives = ((), ((0,),), ((1,),), ((2, 1),), ((3,), (0,)))
    constraints = [()] + [(Constraint(*each),) for each in itertools.product(conditions, alternatives)]
    for goal in ((4,), (5,)):
        for some_clauses, some_constraints in itertools.product(clauses, constraints):
            yield Book(3, 2, goal, some_clauses, some_constraints)


def check_asked(book, about):
    """Each hypothesis of the book, with budgets so far from the node numbers of both searches."""
    packed = encode(book)
    first, found = tree.listed(book)
    explaining = explaining_by_trying(book)
    smallest = smallest_of(explaining)
    check(set(smallest) <= set(found) <= set(explaining), book)
    check(listed(packed, first, 1024) == (("listed", len(smallest)), first, smallest), book)
    for h in range(book.abducibles):
        success, second = tree.asked(book, h)
        check(tree.asked_by_cutting(book, h) == (success, second), (book, h))
        check(second <= first + (success or not smallest), (book, h))  # so a 30 of the second search hides no verdict but possible
        word = expected_answer(explaining, h)
        check(success == (word == "admitted"), (book, h))
        for budget in (0, *(second + far for far in about)):
            expected = Result((word,), second, [], "clean") if budget >= second else Result(("refused", 30), budget, [], "clean")
            check(admits(packed, h, budget, 16384) == expected, (book, h, budget))
        for budget in (first + far for far in about):
            expected = expected_result(budget, len(found), first, second, smallest, expected_verdict(explaining, h), h)
            check(verdict(packed, h, budget, len(found), 16384) == expected, (book, h, budget))
        if smallest and len(smallest) % 2 == h % 2:  # a refusal of the first search is passed on
            room = len(smallest) - 1
            check(verdict(packed, h, first, room, 16384) == listing(packed, first, room, 16384), (book, h, room))


def expected_result(budget, room, first, second, smallest, word, h):
    """What a verdict answers and leaves in room enough, by the node numbers of both searches, the smallest sets and the word for it."""
    asks = bool(smallest) and not any(s & 1 << h for s in smallest)
    if budget < first:
        return Result(("refused", 30), budget, [0] * room, "clean")
    if asks and budget < second:
        return Result(("refused", 30), first + budget, [0] * room, "clean")
    return Result((word,), first + asks * second, smallest + [0] * (room - len(smallest)), "clean")


def check_asked_generators(count):
    """Generated cases of verdict and second search: every answer is met, of a verdict with one search and with two."""
    rng = random.Random(20)
    verdicts, asks = set(), set()
    for _ in range(count):
        asks.add(kind(line(asked.admits_case(rng))))
        packed = asked.verdict_case(rng)
        answer = line(packed)
        verdicts.add((kind(answer), searches(packed, answer)))
    refused = {f"refused {number}" for number in (3, 4, 5, 6, 7, 9, 21, 22, 23, 30)}  # and, more rarely, 1, 2 and 8
    check(asks >= {"admitted", "excluded"} | refused, asks)
    one = {"unexplained", "needed", "possible", "refused 20", "refused 31"} | refused
    check(verdicts >= {(word, 1) for word in one} | {(word, 2) for word in ("possible", "ruled out", "refused 30")}, verdicts)


def searches(packed, answer):
    """How many searches a verdict's nodes are of, by what the lister needs of them."""
    cases = Cases(packed[1:])
    unsure, _ = cases.image(), cases.number(4)
    return 1 if int(answer.split(" nodes ")[1].split()[0]) <= listing(unsure, *cases.means()).nodes else 2


def check_round_trips(count):
    """Reading an encoded book gives it back; encoding a read image gives it back."""
    rng = random.Random(12)
    for _ in range(count):
        book = sound_book(rng)
        check(read(encode(book)) == book, book)
        unsure = image(rng)
        found = read(unsure)
        if isinstance(found, Book):
            check(encode(found) == unsure, unsure.hex())


def check_places(count):
    """So many refused images: number and place as found field by field with names, and by paths; every fault there is is met."""
    rng = random.Random(13)
    met, refused = set(), 0
    while refused < count:
        unsure = image(rng)
        found = read(unsure)
        fault = placing.first_fault(unsure)
        if fault:
            check(found == fault[:2], (unsure.hex(), found, fault))
            met.add((fault[0], fault[2]))
            if 4 <= found.number and len(unsure) <= 150 and refused % 2:
                check(is_place(rng, unsure, found, fault[2]), (unsure.hex(), found, fault))
        elif isinstance(found, Refusal):
            check(found.number == 9 and 13 <= found.place < len(unsure), (unsure.hex(), found))
        refused += isinstance(found, Refusal)
        if refused % 4 == 0:
            check_passed_on(rng, unsure, found)
    check(met == placing.FAULTS, met ^ placing.FAULTS)


def number_of(unsure):
    """The number of this image's refusal; 0 if it has none."""
    found = read(unsure)
    return found.number if isinstance(found, Refusal) else 0


def is_place(rng, unsure, found, name):
    """Whether the place of a 4 to 8 is right, by the numbers of other images."""
    number, place = found
    if name == "left over":  # without these bytes it is a book, perhaps with a loop
        return place < len(unsure) and number_of(framed(unsure[5:place])) in (0, 9)
    if name.startswith("missing"):  # without half of it, it is missing still; with a 2 put there, and more behind it, it is not
        put = framed(unsure[5:place] + b"\0\2" + bytes(8))
        return len(unsure) - place in (0, 1) and read(framed(unsure[5:place])) == found != read(put)
    return placing.settles(rng, unsure, number, place, number_of)


def check_passed_on(rng, unsure, found):
    """Judge, lister, verdict and second search tell of a broken image what the reader does, whatever else they are given; of no other
    refusal a place."""
    budget, room, work = rng.choice(((5, 2, 16384), (0, 0, 16384), (5, 2, 0), (1_000_001, 2, 16384), (5, 1025, 16384)))
    judged = line(pack_judge(unsure, rng.choice((0, (1 << 64) - 1))))
    h = rng.choice((0, 1 << 31))
    searched = [line(pack_list(unsure, budget, room, work)), line(pack_verdict(unsure, h, budget, room, work))]
    again = line(pack_admits(unsure, h, budget, work))
    if isinstance(found, Refusal):
        check(line(pack_read(unsure)) == judged == f"refused {found.number} at {found.place}", unsure.hex())
        left = "".join(" 7" for _ in range(room))
        told = f"refused {found.number} nodes 0 at {found.place}"
        check(searched == [f"{told} sets{left} work untouched"] * 2 and again == f"{told} work untouched", unsure.hex())
    else:
        check(not any(" at " in each for each in (judged, *searched, again)), unsure.hex())


def check_loop_places(count):
    """The place of 9 against all paths: every book of one-literal clauses over three atoms, and random ones; on larger books by steps."""
    rng = random.Random(18)
    edges = list(itertools.product(range(3), repeat=2))
    for taken in itertools.product((False, True), repeat=len(edges)):
        clauses = [Clause(p, (2 * q + rng.randrange(2),)) for (p, q), has in zip(edges, taken) if has]
        for _ in range(3):
            rng.shuffle(clauses)
            check_loop_place(Book(3, 0, (), tuple(clauses)), placing.comes_back)
            facts = [Clause(rng.randrange(3)) for _ in range(rng.randrange(3))]
            check_loop_place(images.with_clauses(rng, Book(3, 0, (0,) * rng.randrange(3), tuple(clauses)), facts), placing.comes_back)
    for _ in range(count):
        book = images.tangled_book(rng)
        check_loop_place(book, placing.comes_back)
        check_loop_place(images.off_loops_first(book), placing.comes_back)
    for _ in range(count // 10):
        book = rng.choice((loop_book, images.chain_book, sound_book))(rng)
        check_loop_place(book, placing.comes_back_in_steps)
        check_loop_place(images.off_loops_first(book), placing.comes_back_in_steps)


def check_loop_place(book, on_loop):
    place = placing.loop_place(book, on_loop)
    found = read(encode(book))
    check(found == (book if place is None else Refusal(9, place)), (book, place, found))


def depends_on_itself(book):
    """The loop test once more, by everything an atom reaches."""
    below = {p: {l >> 1 for c in book.clauses if c.head == p for l in c.body} for p in range(book.atoms)}
    for start in range(book.atoms):
        reached, todo = set(), [start]
        while todo:
            new = below[todo.pop()] - reached
            reached |= new
            todo += new
        if start in reached:
            return True
    return False


def check_loops(count):
    """The loop test agrees with one written another way."""
    rng = random.Random(14)
    for number in range(count):
        book = (loop_book, small_book, sound_book, images.chain_book)[number % 4](rng)
        if book.atoms <= 60:
            check((dependency_order(book) is None) == depends_on_itself(book), book)


def check_joiner(count):
    """The joiner against the plain wording of its rule."""
    rng = random.Random(15)
    for _ in range(count):
        bits = rng.choice((3, 5, 8, 64))
        left = [images.some_set(rng, bits) for _ in range(rng.randrange(12))]
        right = [images.some_set(rng, bits) for _ in range(rng.randrange(12))]
        both = set(left + right)
        plain = [s for s in both if not any(t != s and t | s == s for t in both)]
        plain.sort(key=lambda s: (bin(s).count("1"), s))
        check(join(left, right, 30) == (("joined", len(plain)), plain + [0] * (30 - len(plain))), (left, right))
        check(join(left, right, len(plain))[0] == ("joined", len(plain)), (left, right))
        if plain:
            check(join(left, right, len(plain) - 1) == (("refused", 31), [0] * (len(plain) - 1)), (left, right))


def check_stored():
    """Every stored case: its answer by the table, and by the run of packed cases."""
    for operation in stored.TABLES:
        table = stored.cases(operation)
        for name, packed, answer in table:
            check(packed[0] == operation and answer, name)
        if operation != 3:  # the lister's greatest searches are run once, by the table itself, and so are others' of a million nodes
            again = [(packed, answer) for _, packed, answer in table if not re.search(r" nodes \d{6}", answer)]
            check(list(lines(b"".join(packed for packed, _ in again))) == [answer for _, answer in again], f"operation {operation}")


def check_bad_cases():
    """A malformed case ends the run."""
    sound = pack_read(books.P1)
    check(list(lines(sound + sound[:-1])) == ["accepted", "bad case"], "a case cut short")
    check(list(lines(b"\0" + sound)) == ["bad case"], "no operation 0")
    check(list(lines(b"\xff" + sound)) == ["bad case"], "no operation 255")
    check(list(lines(pack_read(bytes(16385)) + sound)) == ["bad case"], "an image too long for a case")
    for pack in (pack_text, pack_names):
        short = pack(b"?-a.", 0)
        check(list(lines(short + short[:-1])) == ["refused 52 room untouched", "bad case"], "a text case cut short")
        check(list(lines(pack(bytes(40000), 10000) + short)) == ["refused 50 room untouched", "refused 52 room untouched"], "a longest case")
        check(list(lines(pack(bytes(40001), 0) + short)) == ["bad case"], "a text too long for a case")
        check(list(lines(pack(b"?-a.", 10001) + short)) == ["bad case"], "a room too long for a case")
    short = pack_admits(books.KELP, 1, 4, 16384)
    admitted = "admitted nodes 4 work clean"
    check(list(lines(short + short[:-1])) == [admitted, "bad case"], "a case of the second search cut short")
    check(list(lines(pack_admits(books.KELP, 1, 4, 20000) + short)) == [admitted, admitted], "a longest work area")
    check(list(lines(pack_admits(books.KELP, 1, 4, 20001) + short)) == ["bad case"], "a work area too long for a case")
    short = pack_clean(books.P1, packed_record(7, ()), 4, 15, 2, 16384)
    check(list(lines(short + short[:-1])) == ["deleted sets 1 2 work clean", "bad case"], "a case of the cleaner cut short")
    check(list(lines(pack_clean(books.P1, bytes(1000), 4, 15, 0, 16384) + sound)) == ["refused 41 sets work untouched", "accepted"], "a longest record")
    for each in ((bytes(1001), 4, 15, 2, 16384), (b"", 4, 15, 1101, 16384), (b"", 4, 15, 2, 20001)):
        check(list(lines(pack_clean(books.P1, *each) + short)) == ["bad case"], "a record, room or work area too long for a case")
    try:
        line(sound + b"\0")
        check(False, "a byte after a case")
    except BadCase:
        check(True, "a byte after a case")


# Groups.

def check_clean_examples():
    """Every line of the cleaner as replay writes it, and of the program above it."""
    group = packed_record(300, (4,))
    check(group == bytes.fromhex("010004012c0004") and parsed(group) == (300, [4]), "a record")
    told = "held 0:possible 1:possible 2:possible sets 1 2 4 work clean"
    check(line_clean(books.P1, group, 7, 18, 3, 16384) == told, "line of a group held")
    check(line_clean(books.P1, packed_record(1, ()), 4, 15, 3, 20000) == "deleted sets 1 2 0 work clean", "line of a group deleted")
    check(line_clean(books.P1, packed_record(1, ()), 5, 15, 3, 20000) == "held 0:possible 2:ruled-out sets 1 2 0 work clean", "line with ruled-out")
    check(line_clean(books.P1, group, 7, 17, 2, 16384) == "refused 30 sets 0 0 work clean", "line of 30")
    check(line_clean(books.P1, group, 7, 18, 2, 16384) == "refused 31 sets 0 0 work clean", "line of 31")
    check(line_clean(books.P1, b"", 0, 18, 2, 16384) == "refused 40 sets 7 7 work untouched", "line of 40")
    check(line_clean(books.REFUSED[8][1], b"", 0, 18, 1, 0) == "refused 9 sets 7 work untouched", "line of a book's own, without its place")
    data = group + packed_record(2, ()) + packed_record(3, (0,)) + bytes.fromhex("0200020004 010000 01000400")
    expected = ["group 300 held 2:possible", "group 2 deleted", "group 3 held refused 42"] + ["group ? held refused 41"] * 3
    check(list(program_lines(books.P1, data, 4)) == expected, "lines of the program")
    check(list(program_lines(books.P1, b"", 4)) == [], "no groups, no lines")
    check(list(program_lines(books.REFUSED[8][1], group, 4)) == ["group 300 held refused 9"], "a broken book")


def check_records():
    """Records of every length with every length field about it: which are malformed."""
    atoms = bytes([0, 7] + [0, 4] * 40)
    for version, length, count in itertools.product((0, 1, 2), (*range(80), 256, 258, 512, 65535), range(76)):
        record = bytes([version]) + length.to_bytes(2, "big") + atoms[:count]
        check((parsed(record) is not None) == cleaning.is_record(record), record.hex())
    for record in (b"", b"\1", b"\1\0", b"\1\2"):
        check(parsed(record) is None, record.hex())


def check_cleaning(count):
    """Groups of small books, with hypotheses of every kind: deleted or held by all sets, refused by the whole trees; list and work area."""
    rng = random.Random(21)
    deleted = met = 0
    while met < count:
        book = (surveys.survey_book, asked.aside_book, surveys.survey_book, small_book)[met % 4](rng)
        observed = [atom for atom in surveys.some_observed(rng, book) if book.abducibles <= atom < book.atoms]
        group = with_facts(book, observed)
        if not 0 < book.abducibles <= 7 or explore(group, 600, 1024).refusal:
            continue
        met += 1
        packed, record = encode(book), packed_record(rng.randrange(65536), observed)
        check(encode(group) == cleaning.group_image(packed, observed), (book, observed))
        sets = cleaning.explaining(group)
        every = range(1, 1 << book.abducibles)
        for hypotheses in {every[-1], *rng.sample(every, min(len(every), 5)), *(1 << h for h in range(book.abducibles))}:
            deleted += check_group(group, packed, record, hypotheses, sets)
    check(deleted > count // 4, deleted)


def check_group(group, packed, record, hypotheses, sets):
    """One group with room enough and budgets about what it needs; whether it is deleted."""
    budget, found = cleaning.nodes_needed(group, members(hypotheses))
    room = len(found)
    smallest = sorted(cleaning.least(sets), key=lambda s: (bin(s).count("1"), s))
    verdicts = tuple((h, expected_verdict(sets, h)) for h in members(hypotheses))
    goes = cleaning.may_go(sets, hypotheses)
    given = clean(packed, record, hypotheses, budget, room, 16384)
    check(given.answer == (("deleted",) if goes else ("held", verdicts)), (group, hypotheses))
    check((given.entries, given.work) == (smallest + [0] * (room - len(smallest)), "clean"), (group, hypotheses))
    short = clean(packed, record, hypotheses, budget - 1, room, 16384)
    check((short.answer, short.entries, short.work) == (("refused", 30), [0] * room, "clean"), (group, hypotheses))
    if smallest:
        none = clean(packed, record, hypotheses, budget, len(smallest) - 1, 16384)
        check((none.answer, none.entries) == (("refused", 31), [0] * (len(smallest) - 1)), (group, hypotheses))
    return goes


def check_clean_generators(count):
    """Generated groups: refused before any search as a list of what may be wrong has it; every answer is met; no group's line depends on
    those before it."""
    rng = random.Random(22)
    packed = [surveys.clean_case(rng) for _ in range(count)]
    alone = [line(each) for each in packed]
    met = set()
    for each, answer in zip(packed, alone):
        cases = Cases(each[1:])
        given = (cases.image(), *cases.group(), *cases.means())
        number = cleaning.first_wrong(*given)
        check(begun(*given)[0] == number, each.hex())
        check(answer.endswith(" work untouched") == bool(number), each.hex())
        check(not number or answer.startswith(f"refused {number} sets"), each.hex())
        met.add(kind(answer))
        met |= set(re.findall(r":([a-z-]+)", answer))
    check(met >= {"deleted", "held", "unexplained", "needed", "possible", "ruled-out"}, met)
    check(met >= {f"refused {number}" for number in (4, 5, 6, 9, 20, 21, 22, 23, 30, 31, 40, 41, 42)}, met)
    order = rng.sample(range(count), count // 4) * 2
    check(list(lines(b"".join(packed[each] for each in order))) == [alone[each] for each in order], "groups in another order")


def check_group_files(count):
    """Files of groups: cut as they were put together, a line each, and the same line wherever a record stands."""
    rng = random.Random(23)
    for number in range(count):
        book = surveys.survey_book(rng)
        packed, hypotheses = encode(book), rng.randrange(1, 1 << book.abducibles)
        data = groups.group_records(book, 20, number, number % 2 == 1)
        cut = list(records(data))
        told = list(program_lines(packed, data, hypotheses))
        check(b"".join(cut) == data and len(cut) == len(told) == 20, data.hex())
        apart = [list(program_lines(packed, record, hypotheses)) for record in cut]
        check([[each] for each in told] == apart, data.hex())
        last = [] if cleaning.is_record(cut[-1]) else [cut.pop()]
        rng.shuffle(cut)
        again = list(program_lines(packed, b"".join(cut + last), hypotheses))
        check(sorted(again) == sorted(told), data.hex())


# Texts.

def check_text_examples():
    """P1 as text gives the printed image, and every line is as replay writes it."""
    spike = stored_text.SPIKE_LINES.encode()
    names = b"fish\nrock\nbubbles\nspike\nwake\n"
    check(text.read(spike, 45) == books.P1, "P1 as text")
    check(text.names(spike, 29) == names, "P1's names")
    check(line_text(spike, 45) == f"written 45 bytes {books.P1.hex()} rest untouched", "line of P1 as text")
    check(line_text(spike, 44) == "refused 52 room untouched", "line of 52")
    check(line_names(spike, 29) == f"written 29 bytes {names.hex()} rest untouched", "line of P1's names")
    check(line_names(spike, 28) == "refused 52 room untouched", "line of 52 for names")
    check(line_text(b"", 0) == "refused 50 room untouched", "line of 50")
    article = b"wet:-abd(rain). wet:-abd(sprinkler). abd(rain)--->abd(cloudy). abd(cloudy)--->false. ?-wet."
    check(text.read(article, 100) == books.P5, "P5 as text")
    check(text.read(b"p:-naf(q). q:-naf(r). r:-abd(a). r:-abd(b). ?-p.", 100) == books.P6, "P6 as text")
    check(text.words(b" abd( x):-naf (y)--->?-z1_.\0") ==
          [b"abd(", b"x", b")", b":-", b"naf", b"(", b"y", b")", b"--->", b"?-", b"z1_", b".", b"\0"], "words")


BLANKS = rb"[ \t\n\r]*"
NAME = rb"(?!(?:abd|naf|true|false)(?![A-Za-z0-9_]))[a-z][A-Za-z0-9_]{0,30}(?![A-Za-z0-9_])"


def spaced(*parts):
    """An expression for these parts with any blanks between them."""
    return BLANKS.join(parts)


def listed_by(sign, part):
    """An expression for one such part, or several with a sign between each two."""
    return part + rb"(?:" + BLANKS + spaced(sign, part) + rb")*"


def grammar():
    """The grammar once more, as one regular expression over the bytes: nothing in it is nested without end."""
    atom = rb"(?:" + NAME + rb"|" + spaced(rb"abd\(", NAME, rb"\)") + rb")"
    literal = rb"(?:" + atom + rb"|" + spaced(rb"naf\(", atom, rb"\)") + rb")"
    literals = listed_by(rb",", literal)
    clause = spaced(atom + rb"(?:" + BLANKS + spaced(rb":-", literals) + rb")?", rb"\.")
    constraint = spaced(rb"(?:true|" + literals + rb")", rb"--->", rb"(?:false|" + listed_by(rb";", literals) + rb")", rb"\.")
    goal = spaced(rb"\?-", rb"(?:true|" + literals + rb")", rb"\.")
    return re.compile(spaced(rb"", rb"(?:(?:" + clause + rb"|" + constraint + rb")" + BLANKS + rb")*" + goal, rb""))


GRAMMAR = grammar()


def well_formed(typed):
    return len(typed) <= 32768 and GRAMMAR.fullmatch(typed) is not None


def agrees(typed):
    """Whether the implementation and the expression say alike if this text is of the grammar."""
    try:
        text.parsed(typed)
    except text.Malformed:
        return not well_formed(typed)
    return well_formed(typed)


def check_grammar():
    """50 or not, by the implementation and by the expression."""
    for name, typed, _, answer in itertools.chain(stored_text.table(), stored_names.table()):
        check(well_formed(typed.encode("latin-1")) == (answer != 50), name)
    words = (b"a", b"abd(", b"naf(", b")", b",", b";", b":-", b"--->", b"?-", b"true", b"false", b".")
    for count in range(5):
        for found in itertools.product(words, repeat=count):
            typed = b" ".join(found) + b" . ?- a ."
            check(agrees(typed), typed)
    for found in itertools.product((b"a", b"abd", b"naf", b"(", b")", b"-", b"--->", b">", b":", b"?", b" ", b"."), repeat=4):
        typed = b"".join(found) + b"?-a."
        check(agrees(typed), typed)


def check_every_byte():
    """Every byte in every place of a text, put in and put in place of what stood there; every byte taken out."""
    for typed in (b"a:-abd(b),naf(abd(c)).?-a.", b" true --->a ;naf( b), c.d--->false .\n?- true. "):
        for place in range(len(typed) + 1):
            check(agrees(typed[:place] + typed[place + 1:]), (typed, place))
            check(agrees(typed[:place]), (typed, place))
            for byte in range(256):
                put = bytes([byte])
                check(agrees(typed[:place] + put + typed[place:]), (typed, place, byte))
                check(agrees(typed[:place] + put + typed[place + 1:]), (typed, place, byte))


def check_text_round_trips(count):
    """What a text says is what it was made from, and so is what the reader of images finds in the written image."""
    rng = random.Random(16)
    for number in range(count):
        document = (texts.small_document, texts.sound_document, texts.small_document, texts.some_document)[number % 4](rng)
        typed = texts.typed(rng, texts.words_of(document))
        if len(typed) > 32768:
            check(text.read(typed, 10000) == 50, typed)
            continue
        check(well_formed(typed) and text.parsed(typed) == document, typed)
        output, names = text.written(typed)
        check(expected_refusal(document) == (0 if isinstance(output, bytes) else output), typed)
        if isinstance(output, bytes):
            book = read(output)
            check(isinstance(book, Book) and encode(book) == output, typed)
            check(as_document(book, names.decode().split("\n")) == by_kind(document), typed)
            check(in_text_order(typed, book.abducibles, names.split(b"\n")[:-1]), typed)
        if number % 10 < 2:
            check_rooms(typed, output, names)


def check_rooms(typed, image, names):
    """52 exactly if the room is shorter than the output; any other refusal in whatever room."""
    for call, output in ((text.read, image), (text.names, names)):
        if isinstance(output, bytes):
            given = [call(typed, room) for room in (0, len(output) - 1, len(output), len(output) + 1)]
            check(given == [52, 52, output, output], typed)
        else:
            check([call(typed, room) for room in (0, 10000)] == [image, image], typed)


def as_document(book, names):
    """Goal, clauses and constraints of a book, with names and marks in place of numbers."""
    def literals(found):
        return [(names[literal >> 1], literal >> 1 < book.abducibles, literal % 2 == 1) for literal in found]
    clauses = [(names[clause.head], literals(clause.body)) for clause in book.clauses]
    constraints = [(literals(each.conditions), [literals(a) for a in each.alternatives]) for each in book.constraints]
    return literals(book.goal), clauses, constraints


def by_kind(document):
    """The same of a document: each kind in the text's order."""
    def literals(found):
        return [(literal.atom.name.decode(), literal.atom.marked, literal.negated) for literal in found]
    clauses = [(each.head.name.decode(), literals(each.body)) for each in document.statements if isinstance(each, text.Clause)]
    constraints = [(literals(each.conditions), [literals(a) for a in each.alternatives])
                   for each in document.statements if isinstance(each, text.Constraint)]
    return literals(document.goal), clauses, constraints


def in_text_order(typed, abducibles, names):
    """Whether the abducibles, and then the others, are named in the order in which their names first stand in the text, none left out."""
    first = {}
    for word in re.finditer(rb"[A-Za-z0-9_]+", typed):
        first.setdefault(word[0], word.start())
    places = [first[name] for name in names]
    known = {word for word in first if word not in (b"abd", b"naf", b"true", b"false")}
    return places[:abducibles] == sorted(places[:abducibles]) and places[abducibles:] == sorted(places[abducibles:]) and set(names) == known


def expected_refusal(document):
    """51, then 5 or 7 in the order of the walk, then 9, or 0; from the document's own counts."""
    def size(constraint):
        return len(constraint.conditions) + sum(map(len, constraint.alternatives))
    marked = {atom.name for atom in document.atoms() if atom.marked}
    others = {atom.name for atom in document.atoms() if not atom.marked}
    clauses = [each for each in document.statements if isinstance(each, text.Clause)]
    constraints = [each for each in document.statements if isinstance(each, text.Constraint)]
    if marked & others:
        return 51
    if not 1 <= len(marked) + len(others) <= 256 or len(marked) > 64 or len(document.goal) > 16 or len(clauses) > 512:
        return 5
    for place, clause in enumerate(clauses):
        if sum(len(each.body) for each in clauses[:place + 1]) > 1024:
            return 5
        if clause.head.marked:
            return 7
    if len(constraints) > 128 or sum(map(size, constraints)) > 1024:
        return 5
    return 9 if has_loop(clauses) else 0


def has_loop(clauses):
    """Whether some head leads back to itself: heads whose clauses lead to no head that is left are taken away, until none goes."""
    left = clauses
    while left:
        heads = {each.head for each in left}
        held = {each.head for each in left if any(literal.atom in heads for literal in each.body)}
        if held == heads:
            return True
        left = [each for each in left if each.head in held]
    return False


def check_text_generators(count):
    """Generated texts of every kind: of the grammar or not, by both; and every refusal is met."""
    rng = random.Random(17)
    met = set()
    for _ in range(count):
        typed = texts.some_text(rng)
        output = text.read(typed, 10000)
        check(well_formed(typed) == (output != 50), typed)
        if isinstance(output, int):  # a text's refusal has no place
            check(line_text(typed, 0) == line_names(typed, 0) == f"refused {output} room untouched", typed)
        met.add(output if isinstance(output, int) else 0)
    check(met == {0, 5, 7, 9, 50, 51}, met)


def check_longest_texts():
    """Texts of 32 KiB whose books are as large as can be: every field has room for its number."""
    for typed in (b"a--->" + b";".join([b"a"] * 16379) + b".?-a.", b"a:-" + b",".join([b"a"] * 16380) + b".?-a.", b"a." * 16382 + b"?-a.",
                  b",".join([b"a"] * 16375) + b"--->false.?-a.", b"?-" + b",".join([b"a"] * 16382) + b"."):
        check(32750 < len(typed) <= 32768 and text.read(typed, 10000) == 5, typed[:20])
        document = text.parsed(typed)
        check(len(encode(text.book_of(document, text.numbered(document)))) > 32000, typed[:20])
    longest = text.parsed(b"a--->" + b";".join([b"a"] * 16379) + b".?-a.")
    check(encode(text.book_of(longest, text.numbered(longest)))[17:19] == (65520).to_bytes(2, "big"), "the longest record")


def main():
    check_soundings()
    check_examples()
    check_against_trying(600)
    check_both_searches(600)
    check_asked_generators(2500)
    check_round_trips(400)
    check_places(28_000)
    check_loop_places(5000)
    check_loops(400)
    check_joiner(400)
    check_stored()
    check_bad_cases()
    check_clean_examples()
    check_records()
    check_cleaning(300)
    check_clean_generators(1800)
    check_group_files(20)
    check_text_examples()
    check_grammar()
    check_every_byte()
    check_text_round_trips(2500)
    check_text_generators(1500)
    check_longest_texts()
    print(f"{passed} checks passed")


if __name__ == "__main__":
    main()
