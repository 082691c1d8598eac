"""Gives generated cases to `rt try`, which runs the program compiled with what the compiler assumes tested as it runs. It must write
what this implementation answers. (`rt try` has an interpreter too, with too few steps for a batch.)

A driver for the implementation beside it; shares no code with the engine. Nothing is proved.

    python3 -m tests.drivers.tried --seed 1 --count 3000
"""

import argparse
import random
import re
import subprocess
import sys
import tempfile
from pathlib import Path

from tests.implementation.answers import line
from tests.generators.cases import case

BATCH = 300  # the toolchain gives each run a minute
REPLAY = Path(__file__).resolve().parents[2] / "crates" / "replay"


def written(folder, name, cases):
    """Writes a batch of cases there, and the lines that they must give."""
    (folder / name).write_bytes(b"".join(cases))
    (folder / f"{name}.stdout").write_text("".join(line(each) + "\n" for each in cases))


def tried(folder):
    """Whether `rt try` gave the lines for each batch of the folder, and what it said."""
    run = subprocess.run(["rt", "try", "--cases", folder], cwd=REPLAY, text=True, stdout=subprocess.PIPE, stderr=subprocess.STDOUT, check=False)
    batches = sum(1 for each in Path(folder).iterdir() if not each.suffix)
    told = re.findall(r"^case=\S+ run=ended status=0 .*output=expected ", run.stdout, re.MULTILINE)
    return run.returncode == 0 and len(told) == batches, run.stdout


def main():
    parser = argparse.ArgumentParser(description="give cases to `rt try`")
    parser.add_argument("--seed", type=int, default=1)
    parser.add_argument("--count", type=int, default=3000)
    chosen = parser.parse_args()
    rng = random.Random(chosen.seed)
    with tempfile.TemporaryDirectory() as folder:
        for start in range(0, chosen.count, BATCH):
            written(Path(folder), f"from_{start}", [case(rng, 1 + i % 5) for i in range(min(BATCH, chosen.count - start))])
        well, said = tried(folder)
    if not well:
        sys.exit(said)
    print(f"{chosen.count} cases, 0 differences")


if __name__ == "__main__":
    main()
