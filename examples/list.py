"""Lists the smallest explanations of a book: list.py LIBRARY FILE.

LIBRARY is a shared object with the calls, which examples/run makes of the archive; Python must run on x86-64."""

import ctypes
import sys
from pathlib import Path

# from include/wizogbare.h
LONGEST_IMAGE = 8751
WORK_NUMBERS = 16384
NODE_BITS = 32
KIND_BITS = 56
LISTED = 0
BROKEN = 2

BUDGET = 100_000
ROOM = 256


def lister(library):
    call = ctypes.CDLL(str(Path(library).resolve())).wizogbare_list
    call.restype = ctypes.c_uint64
    call.argtypes = [
        ctypes.c_char_p, ctypes.c_size_t,
        ctypes.c_uint32,
        ctypes.POINTER(ctypes.c_uint64), ctypes.c_size_t,
        ctypes.POINTER(ctypes.c_uint32), ctypes.c_size_t,
    ]
    return call


def listing(call, image):
    """The kind of the answer, its count or refusal's number, the nodes or of a broken book the place, and the sets."""
    sets = (ctypes.c_uint64 * ROOM)()
    work = (ctypes.c_uint32 * WORK_NUMBERS)()
    code = call(image, len(image), BUDGET, sets, len(sets), work, len(work))
    kind = code >> KIND_BITS
    number = code >> NODE_BITS & (1 << KIND_BITS - NODE_BITS) - 1
    behind = code & (1 << NODE_BITS) - 1
    return kind, number, behind, list(sets)


def members(a_set):
    return [str(j) for j in range(a_set.bit_length()) if a_set >> j & 1] or ["none"]


def main(library, path):
    # one byte more than an image may have, so that a longer one is refused
    with open(path, "rb") as file:
        image = file.read(LONGEST_IMAGE + 1)
    kind, number, behind, sets = listing(lister(library), image)
    if kind == BROKEN:
        print(f"refused {number} nodes 0 at {behind}")
        return 1
    if kind != LISTED:
        print(f"refused {number} nodes {behind}")
        return 1
    print(f"sets {number} nodes {behind}")
    for place, a_set in enumerate(sets[:number], 1):
        print(f"{place}:", *members(a_set))
    return 0


if __name__ == "__main__":
    if len(sys.argv) != 3:
        sys.exit("usage: list.py LIBRARY FILE")
    sys.exit(main(*sys.argv[1:]))
