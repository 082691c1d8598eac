"""A soak of damaged images: sound images, each damaged in one to six places, read, judged, searched and asked for a verdict by a
replay program and by this implementation.

A driver for the implementation beside it; shares no code with the engine.

    python3 -m tests.drivers.soak --replay "path/to/replay" --seed 1 --count 100000
"""

import random
import sys

from tests.implementation.answers import pack_judge, pack_list, pack_read, pack_verdict
from tests.drivers.shared import Comparison, batches, options
from tests.generators.images import damaged_image, limit_image, loop_image, sound_image
from tests.implementation.reader import framed
from tests.implementation.search import WORK_NUMBERS

HEADER = 5  # the version and the length
EDGES = (0, 1, 2, 127, 128, 254, 255)


def bit_flipped(rng, image):
    image[rng.randrange(len(image))] ^= 1 << rng.randrange(8)


def byte_set(rng, image):
    image[rng.randrange(len(image))] = rng.choice(EDGES + (rng.randrange(256),))


def field_moved(rng, image):
    """A field one or two up or down; fields stand at odd places."""
    at = HEADER + 2 * rng.randrange(max(1, (len(image) - HEADER) // 2))
    value = int.from_bytes(image[at:at + 2], "big") + rng.choice((-2, -1, 1, 2))
    if at + 2 <= len(image):
        image[at:at + 2] = (value % 65536).to_bytes(2, "big")


def cut(rng, image):
    del image[rng.randrange(1, len(image) + 1):]


def part_gone(rng, image):
    at = rng.randrange(len(image))
    del image[max(at, 1):at + rng.choice((1, 2, 4, 10))]


def part_twice(rng, image):
    at = rng.randrange(len(image))
    image[at:at] = image[at:at + rng.choice((1, 2, 4, 10))]


def parts_swapped(rng, image):
    a, b = (HEADER + 2 * rng.randrange(max(1, (len(image) - HEADER) // 2)) for _ in range(2))
    image[a:a + 2], image[b:b + 2] = image[b:b + 2], image[a:a + 2]


DAMAGES = (bit_flipped, byte_set, field_moved, field_moved, cut, part_gone, part_twice, parts_swapped)


def damaged(rng):
    """A damaged image; its length field is mended in most cases, so that what lies behind it is read."""
    image = bytearray(rng.choice((sound_image, sound_image, limit_image, loop_image, damaged_image))(rng))
    for _ in range(rng.choice((1, 1, 1, 2, 3, 6))):
        if image:
            rng.choice(DAMAGES)(rng, image)
    return framed(bytes(image[HEADER:])) if rng.random() < 0.8 else bytes(image)


def soak_case(rng, operation):
    image = damaged(rng)
    means = (rng.choice((0, 1, 300, 3000)), rng.choice((0, 1, 4, 64)), WORK_NUMBERS)
    if operation == 1:
        return pack_read(image)
    if operation == 2:
        return pack_judge(image, rng.choice((0, rng.getrandbits(3), rng.getrandbits(64))))
    if operation == 3:
        return pack_list(image, *means)
    return pack_verdict(image, rng.randrange(8), *means)


def main():
    chosen = options("read, judge and search damaged images", "count", 100000).parse_args()
    rng = random.Random(chosen.seed)
    comparison = Comparison(chosen.replay)
    for size in batches(chosen.count):
        comparison.compare([soak_case(rng, 1 + i % 4) for i in range(size)])
    comparison.report()
    sys.exit(1 if comparison.differing else 0)


if __name__ == "__main__":
    main()
