"""Writes the stored cases of an operation, or the lines expected for them.

Written from the specification alone; shares no code with the engine.

    python3 -m tests.stored.stored 1 > stdin
    python3 -m tests.stored.stored 1 --answers > stdout
    python3 -m tests.stored.stored 1 --names
"""

import argparse
import importlib
import sys

TABLES = {1: "tests.stored.stored_read", 2: "tests.stored.stored_judge", 3: "tests.stored.stored_list", 4: "tests.stored.stored_verdict", 5: "tests.stored.stored_join",
          6: "tests.stored.stored_text", 7: "tests.stored.stored_clean", 12: "tests.stored.stored_names", 13: "tests.stored.stored_admits"}


def cases(operation):
    """(name, packed case, line) for each stored case; no name twice."""
    found = list(importlib.import_module(TABLES[operation]).stored())
    names = [name for name, _, _ in found]
    twice = {name for name in names if names.count(name) > 1}
    assert not twice, f"names used twice: {sorted(twice)}"
    return found


def main():
    parser = argparse.ArgumentParser(description="stored cases of an operation")
    parser.add_argument("operation", type=int, choices=sorted(TABLES))
    parser.add_argument("--answers", action="store_true", help="the lines expected")
    parser.add_argument("--names", action="store_true", help="the cases' names, each with its line")
    options = parser.parse_args()
    for name, packed, answer in cases(options.operation):
        if options.names:
            print(f"{name}: {answer}")
        elif options.answers:
            print(answer)
        else:
            sys.stdout.buffer.write(packed)


if __name__ == "__main__":
    main()
