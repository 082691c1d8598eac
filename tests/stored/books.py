"""Books that several tables of stored cases use.

Shares no code with the engine. DEEPEST, FULLEST and MOST_OPEN were chosen to fill
the longest path, the marks and the frames; the others come from the specification alone.
The books of P5 and P6 are examples 5 and 6 of the article that the
specification names for its meaning (paper 003, 6).
"""

from tests.implementation.notation import image, raw, rest

P1 = raw("01 00000028 0005 0003 0001 0006 0003 0004 0003 0000 0004 0003 0002 0004 0003 0004 "
         "0001 0008 0001 0004 0001 0008")
P5 = image("abducible rain sprinkler cloudy; goal wet; wet <- rain; wet <- sprinkler; "
           "rain -> cloudy; cloudy ->")
P6 = image("abducible a b; goal p; p <- -q; q <- -r; r <- a; r <- b")
FACT_AND_RULE = image("abducible a b; p <-; q <- a; q <- b; p -> q")
FACT_AND_RULE_WITH_GOAL = image("abducible a b; goal p; p <-; q <- a; q <- b; p -> q")
P7 = rest("0001 0000 0000 0000 0000")
P8 = image("abducible a b; goal x; x <- a b; x <- a")
P9 = image("abducible a b; goal x; x <- a b; x <- -a -b")
P10 = image("abducible a b; p <- a; p ->; -> a")
P11 = image("abducible saturday snow; goal campus; campus <- -ski; ski <- saturday -snow")

# The story of paper 02, A3: kelp alone explains the group, kelp with rock does too but is not smallest.
KELP = image("abducible kelp rock; goal group; group <- kelp")
KELP_OR_BOTH = image("abducible kelp rock; goal group; group <- kelp; group <- kelp rock")

# An image for each refusal of the reader.
REFUSED = [
    (1, raw("01 0000")),
    (2, raw("02 0000000a 0001 0000 0000 0000 0000")),
    (3, raw("01 0000000b 0001 0000 0000 0000 0000")),
    (4, rest("0001 0000 0000 0000 0000 00")),
    (5, rest("0101 0000 0000 0000 0000")),
    (6, rest("0001 0000 0001 0002 0000 0000")),
    (7, rest("0001 0001 0000 0001 0002 0000 0000")),
    (8, rest("0001 0000 0000 0000 0001 0004 0000 0000")),
    (9, rest("0001 0000 0000 0001 0004 0000 0000 0000")),
]

# The place of each of these refusals.
PLACES = {1: 3, 2: 0, 3: 1, 4: 15, 5: 5, 6: 11, 7: 15, 8: 19, 9: 13}

# 250 layers of two mentions above an abducible.
LAYERS = image("abducible a; goal p250; p0 <- a; " + "; ".join(f"p{i + 1} <- p{i} p{i}" for i in range(250)))

# A chain of 255 atoms above an abducible, each from the negation of the next.
NEGATIONS = image("abducible a; goal p254; p0 <- -a; " + "; ".join(f"p{i + 1} <- -p{i}" for i in range(254)))

# The deepest path: 16 goal literals, a body of 513, 511 clauses to break, 128 constraints of 8 literals, and the success.
DEEPEST = image(
    "abducible a b; goal x" + " x" * 14 + " -y"
    + "; x <-" + " a" * 513
    + "; y <- b" * 511
    + ("; -> " + "a " * 8) * 128
)

# The most that one path can hold: 256 atoms marked, 512 clauses broken, 128 constraints kept.
FULLEST = image(
    "abducible " + " ".join(f"a{i}" for i in range(64))
    + "; goal " + " ".join(f"-a{i}" for i in range(16))
    + "".join(f"; d{i % 192} <- a0" for i in range(512))
    + "".join("; -> " + " ".join(f"-{name}" for name in names) for names in (
        [f"a{16 + 8 * k + j}" for j in range(8)] if k < 6 else [f"d{8 * (k - 6) % 192 + j}" for j in range(8)]
        for k in range(128)))
)

# The most that one path can leave open: 512 clauses to break and 128 constraints, each with a second way, which fails.
MOST_OPEN = image("abducible a b; goal b -y" + "; y <- a b" * 512 + "; a b ->" * 128)


def pairs(count, beside=""):
    """So many atoms wanted, each from one of two abducibles: 2^count smallest sets. Beside them perhaps abducibles that nothing mentions."""
    names = range(count)
    return image(
        "abducible " + " ".join(f"a{i} b{i}" for i in names) + f" {beside}"
        + "; goal " + " ".join(f"x{i}" for i in names)
        + "".join(f"; x{i} <- a{i}; x{i} <- b{i}" for i in names)
    )


def facts(counts):
    """Atoms wanted in a row, each so many times a fact: a wide search for the empty set."""
    return image(
        "goal " + " ".join(f"x{i}" for i in range(len(counts)))
        + "".join(f"; x{i} <-" * count for i, count in enumerate(counts))
    )


def in_vain(counts, *behind):
    """A wide search without a success, as `facts` with an atom without clauses at its end; then these clause bodies for the same goal.

    With counts c, d and on, the first clause's child and what is below it have 1 + c (1 + d (1 + ..)) nodes. One abducible, a.
    """
    return image(
        "abducible a; goal x; x <- " + " ".join(f"y{i}" for i in range(len(counts))) + " never"
        + "".join(f"; x <- {body}" for body in behind)
        + "".join(f"; y{i} <-" * count for i, count in enumerate(counts))
    )


def abducibles(count):
    """The statement that declares so many abducibles a0, a1 and on."""
    return "abducible " + " ".join(f"a{i}" for i in range(count)) + "; "
