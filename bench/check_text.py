"""Compares both C readers of texts, the plain one and the tuned one, with the independent Python implementation.

    python3 bench/check_text.py

Compared are the answer, the bytes written and the rest of the room, on the benchmark's texts, on the stored cases of operation 6, and
on 2,000 generated texts: sound ones, at and over each limit, with loops, with names and heads marked wrongly, and damaged ones.
"""

import os
import random
import subprocess
import sys
import tempfile
from collections import Counter
from pathlib import Path

HERE = Path(__file__).parent
GENERATED = 2000

sys.dont_write_bytecode = True
sys.path.append(str(HERE.parent))
# The Python implementation's.
from tests.generators import texts as generator
from tests.implementation import answers
from tests.stored import stored_text

from texts import entries


READERS = ("plain", "tuned")


def built(folder):
    program = folder / "text_answers"
    compiler = os.environ.get("CC", "cc")
    more = os.environ.get("CFLAGS", "").split()
    sources = [HERE / name for name in ("text_answers.c", "text.c", "text_tuned.c", "reader.c")]
    subprocess.run([compiler, "-O3", *more, "-o", program, *sources], check=True)
    return program


def c_lines(program, reader, cases):
    return subprocess.run([program, reader], input=b"".join(cases), stdout=subprocess.PIPE).stdout.decode().splitlines()


def differences(reader, cases, expected, found):
    """How many answers of this reader differ; the first few are shown."""
    if len(found) != len(cases):
        sys.exit(f"the {reader} C reader gave {len(found)} of {len(cases)} answers")
    differing = [place for place, line in enumerate(found) if line != expected[place]]
    for place in differing[:5]:
        print(f"{reader} differs: {cases[place][:300]}\n{expected[place][:300]}\n{found[place][:300]}")
    return len(differing)


def main():
    rng = random.Random(1)
    cases = [answers.pack_text(entry.text, room) for entry in entries() for room in (answers.MOST_BYTES, 100)]
    cases += [case for _, case, _ in stored_text.stored()]
    cases += [generator.text_case(rng) for _ in range(GENERATED)]
    expected = [answers.line(case) for case in cases]
    kinds = Counter(line.split()[1] if line.startswith("refused") else "written" for line in expected)
    print(f"{len(cases)} texts ({', '.join(f'{count} {kind}' for kind, count in sorted(kinds.items()))})")
    with tempfile.TemporaryDirectory() as folder:
        program = built(Path(folder))
        counts = [differences(reader, cases, expected, c_lines(program, reader, cases)) for reader in READERS]
    print(", ".join(f"{reader} C: {count} differences" for reader, count in zip(READERS, counts)))
    sys.exit(1 if any(counts) else 0)


if __name__ == "__main__":
    main()
