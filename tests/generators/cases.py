"""The table of what makes a case of each operation.

Written from the specification alone; shares no code with the engine.
"""

from tests.generators import asked, images, surveys, texts

CASES = {**images.CASES, **asked.CASES, **surveys.CASES, **texts.CASES}


def case(rng, operation):
    """A packed case of this operation."""
    return CASES[operation](rng)
