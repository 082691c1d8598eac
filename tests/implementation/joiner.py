"""The joiner of two lists of sets.

Written from the specification alone; shares no code with the engine.
"""

MOST_ENTRIES = 1024
LIST_BEFORE = 7  # what every entry of the third list holds before a call


def join(left, right, room):
    """(('joined', K) or ('refused', number), entries of the third list)."""
    if max(len(left), len(right), room) > MOST_ENTRIES:
        return ("refused", 20), [LIST_BEFORE] * room
    result = smallest(left + right)
    if len(result) > room:
        return ("refused", 31), [0] * room
    return ("joined", len(result)), result + [0] * (room - len(result))


def smallest(sets):
    """The sets with no proper subset among them, once each, in order."""
    found = []
    for s in sorted(set(sets), key=lambda s: (s.bit_count(), s)):
        if not any(t & s == t for t in found):
            found.append(s)
    return found
