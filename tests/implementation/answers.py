"""Cases as bytes, and the line that `replay` prints for each.

Written from the specification alone; shares no code with the engine.

    python3 -m tests.implementation.answers < cases > lines

answers a whole run of cases.
"""

import sys

from tests.implementation import text
from tests.implementation.cleaner import clean
from tests.implementation.joiner import join
from tests.implementation.judge import judge
from tests.implementation.reader import Book, read
from tests.implementation.search import admits, listing, verdict

LONGEST_CASE_IMAGE = 16384
MOST_ROOM = 1100
MOST_WORK = 20000
LONGEST_CASE_TEXT = 40000
MOST_BYTES = 10000  # a room in bytes
LONGEST_CASE_RECORD = 1000


class BadCase(Exception):
    """A case that is not well formed."""


# Packing.

def pack_image(image):
    return len(image).to_bytes(4, "big") + image


def pack_sets(sets):
    return len(sets).to_bytes(2, "big") + b"".join(s.to_bytes(8, "big") for s in sets)


def pack_read(image):
    return b"\x01" + pack_image(image)


def pack_judge(image, assumed):
    return b"\x02" + pack_image(image) + assumed.to_bytes(8, "big")


def pack_means(budget, room, work_length):
    return budget.to_bytes(4, "big") + room.to_bytes(2, "big") + work_length.to_bytes(4, "big")


def pack_list(image, budget, room, work_length):
    return b"\x03" + pack_image(image) + pack_means(budget, room, work_length)


def pack_verdict(image, hypothesis, budget, room, work_length):
    means = pack_means(budget, room, work_length)
    return b"\x04" + pack_image(image) + hypothesis.to_bytes(4, "big") + means


def pack_join(left, right, room):
    return b"\x05" + pack_sets(left) + pack_sets(right) + room.to_bytes(2, "big")


def pack_text(typed, room):
    return b"\x06" + pack_image(typed) + room.to_bytes(4, "big")


def pack_clean(image, record, hypotheses, budget, room, work_length):
    group = len(record).to_bytes(2, "big") + record + hypotheses.to_bytes(8, "big")
    return b"\x07" + pack_image(image) + group + pack_means(budget, room, work_length)


def pack_names(typed, room):
    return b"\x0c" + pack_image(typed) + room.to_bytes(4, "big")


def pack_admits(image, hypothesis, budget, work_length):
    asked = b"".join(number.to_bytes(4, "big") for number in (hypothesis, budget, work_length))
    return b"\x0d" + pack_image(image) + asked


# The line of each operation.

def line_read(image):
    found = read(image)
    return "accepted" if isinstance(found, Book) else f"refused {found}"


def line_judge(image, assumed):
    return " ".join(str(part) for part in judge(image, assumed))


def line_list(image, budget, room, work_length):
    return result_line(listing(image, budget, room, work_length))


def line_verdict(image, hypothesis, budget, room, work_length):
    return result_line(verdict(image, hypothesis, budget, room, work_length))


def line_join(left, right, room):
    answer, entries = join(left, right, room)
    return " ".join(str(part) for part in (*answer, "sets", *entries))


def line_text(typed, room):
    return writing_line(text.read(typed, room))


def line_clean(image, record, hypotheses, budget, room, work_length):
    return result_line(clean(image, record, hypotheses, budget, room, work_length))


def line_names(typed, room):
    return writing_line(text.names(typed, room))


def line_admits(image, hypothesis, budget, work_length):
    result = admits(image, hypothesis, budget, work_length)
    return f"{result.told()} work {result.work}"


def writing_line(output):
    """The line of a call that writes bytes into a room: what stands at its front, the rest as it was; or a refusal."""
    if isinstance(output, bytes):
        return f"written {len(output)} bytes {output.hex()} rest untouched"
    return f"refused {output} room untouched"


def result_line(result):
    """The line of a call that searches: what it tells, list, work area."""
    parts = (result.told(), "sets", *result.entries, "work", result.work)
    return " ".join(str(part) for part in parts)


# Unpacking.

class Cases:
    """A run of cases, taken from the front."""

    def __init__(self, data):
        self.data = data
        self.at = 0

    def ended(self):
        return self.at == len(self.data)

    def take(self, count):
        if self.at + count > len(self.data):
            raise BadCase
        self.at += count
        return self.data[self.at - count:self.at]

    def number(self, count, most=None):
        value = int.from_bytes(self.take(count), "big")
        if most is not None and value > most:
            raise BadCase
        return value

    def image(self):
        return self.take(self.number(4, LONGEST_CASE_IMAGE))

    def sets(self):
        return [self.number(8) for _ in range(self.number(2, MOST_ROOM))]

    def text(self):
        return self.take(self.number(4, LONGEST_CASE_TEXT)), self.number(4, MOST_BYTES)

    def group(self):
        return self.take(self.number(2, LONGEST_CASE_RECORD)), self.number(8)

    def means(self):
        return self.number(4), self.number(2, MOST_ROOM), self.number(4, MOST_WORK)

    def asked(self):
        return self.number(4), self.number(4), self.number(4, MOST_WORK)

    def line(self):
        """The line of the next case."""
        operation = self.number(1)
        if operation == 1:
            return line_read(self.image())
        if operation == 2:
            return line_judge(self.image(), self.number(8))
        if operation == 3:
            return line_list(self.image(), *self.means())
        if operation == 4:
            return line_verdict(self.image(), self.number(4), *self.means())
        if operation == 5:
            return line_join(self.sets(), self.sets(), self.number(2, MOST_ROOM))
        if operation == 6:
            return line_text(*self.text())
        if operation == 7:
            return line_clean(self.image(), *self.group(), *self.means())
        if operation == 12:
            return line_names(*self.text())
        if operation == 13:
            return line_admits(self.image(), *self.asked())
        raise BadCase


def line(case):
    """The line of one packed case."""
    cases = Cases(case)
    answer = cases.line()
    if not cases.ended():
        raise BadCase
    return answer


def lines(data):
    """The lines of a whole run; a malformed case ends it."""
    cases = Cases(data)
    while not cases.ended():
        try:
            yield cases.line()
        except BadCase:
            yield "bad case"
            return


def main():
    for answer in lines(sys.stdin.buffer.read()):
        print(answer)


if __name__ == "__main__":
    main()
