"""What the drivers share: their options, running the replay program, and telling where it differs.

Written from the specification alone; shares no code with the engine.
"""

import argparse
import shlex
import subprocess
from collections import Counter

from tests.implementation.answers import line

SHOWN = 5  # how many differing cases are printed
SHOWN_LENGTH = 400  # how much of a long line is printed
BATCH = 2000  # how many cases a run of the program answers


def options(description, of, count):
    """The options of a driver: a program, a seed, and how many of these to try."""
    parser = argparse.ArgumentParser(description=description)
    parser.add_argument("--replay", required=True, help="the program and its arguments")
    parser.add_argument("--seed", type=int, default=1)
    parser.add_argument(f"--{of}", type=int, default=count)
    return parser


def replayed(command, cases):
    """The lines the program prints for these cases."""
    run = subprocess.run(shlex.split(command), input=b"".join(cases), stdout=subprocess.PIPE, check=False)
    if run.returncode != 0:
        print(f"the program ended with status {run.returncode}")
    return run.stdout.decode("utf-8", "replace").split("\n")


class Comparison:
    """Cases given to the program: how many with which answer, and where it differs from this implementation."""

    def __init__(self, command):
        self.command = command
        self.counts = Counter()
        self.differing = []
        self.total = 0

    def compare(self, cases):
        expected = [line(each) for each in cases]
        for packed, answer in zip(cases, expected):
            self.counts[packed[0], kind(answer)] += 1
        self.differing += differences(cases, expected, replayed(self.command, cases))
        self.total += len(cases)

    def report(self):
        for (operation, answer), count in sorted(self.counts.items(), key=in_report_order):
            print(f"operation {operation}  {answer:12} {count}")
        for packed, expected, given in self.differing[:SHOWN]:
            print(f"case     {packed.hex()}")
            print(f"expected {shortened(expected)}")
            print(f"given    {shortened(given)}")
        print(f"{self.total} cases, {len(self.differing)} differences")


def batches(count):
    """The sizes of the batches that so many cases are run in."""
    return [min(BATCH, count - done) for done in range(0, count, BATCH)]


def differences(cases, expected, given):
    """(case, expected line, given line) wherever they differ; every line ends in LF."""
    extra = given[len(expected):]
    given = given[:len(expected)] + ["(no line)"] * (len(expected) - len(given))
    found = [triple for triple in zip(cases, expected, given) if triple[1] != triple[2]]
    if extra != [""]:
        found.append((b"", "(end after the last line)", " / ".join(extra) or "(no LF at the end)"))
    return found


def kind(answer):
    """The answer's kind: the refusal with its number, or the words before any number."""
    words = answer.split(" ")
    if words[0] == "refused":
        return " ".join(words[:2])
    return "ruled out" if words[0] == "ruled" else words[0]


def in_report_order(item):
    (operation, answer), _ = item
    word, _, number = answer.partition(" ")
    return operation, word, int(number) if number.isdigit() else 0


def shortened(text):
    return text if len(text) <= SHOWN_LENGTH else text[:SHOWN_LENGTH] + f" ... ({len(text)} characters)"
