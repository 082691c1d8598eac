"""Stored cases of operation 1, the reader: (name, image, number and place of the refusal, written by hand).

Written from the specification alone; shares no code with the engine.
The number 0 stands for accepted and has no place.

Places count bytes from 0. A stands at 5, B at 7, the goal count at 9 and, behind an empty goal, the clause count at 11 and the first
record at 13. A clause of n body literals takes 4 + 2n bytes.
"""

from tests.implementation.answers import line_read, pack_read
from tests.implementation.notation import image, raw, rest
from tests.stored import places

SMALLEST = "0001 0000 0000 0000 0000"  # A 1, B 0, nothing else
SPIKE = ("01 00000028 0005 0003 0001 0006 0003 0004 0003 0000 0004 0003 0002 0004 0003 0004 "
         "0001 0008 0001 0004 0001 0008")

# Clauses and constraints as fields, for the long images.
NO_CLAUSE = "0001 0000 0000 0000 "  # A 1, B 0, no goal, no clause
FACT = "0002 0001 "             # head 1
EMPTY_CONSTRAINT = "0002 0000 "  # no condition, no alternative
TWO = "0002 0001 0000 "          # A 2, B 1, no goal


def body(count):
    """A clause with head 1 and so many body literals, all of them atom 0."""
    return f"{2 + 2 * count:04x} 0001 " + "0000 " * count


def conditions(count):
    """A constraint with so many condition literals."""
    return f"{2 + 2 * count:04x} {count:04x} " + "0000 " * count


def singles(count):
    """A constraint with so many alternatives of one literal."""
    return f"{2 + 4 * count:04x} 0000 " + "0001 0000 " * count


def alternative(count):
    """A constraint with one alternative of so many literals."""
    return f"{4 + 2 * count:04x} 0000 {count:04x} " + "0000 " * count


def mixed(count, of_alternative):
    """A constraint with so many conditions, and one alternative of so many literals."""
    length = 4 + 2 * count + 2 * of_alternative
    return f"{length:04x} {count:04x} " + "0000 " * count + f"{of_alternative:04x} " + "0000 " * of_alternative


def longest(last=""):
    """The longest image: every limit used up, each record as wasteful as can be."""
    clauses = "0002 0040 " * 511 + f"{2 + 2 * 1024:04x} 0040 " + "0000 " * 1024
    constraints = EMPTY_CONSTRAINT * 127 + singles(1024)
    return rest("0100 0040 0010 " + "0000 " * 16 + "0200 " + clauses + "0080 " + constraints + last)


EXAMPLES = [
    ("P1, the book that is printed", raw(SPIKE), 0),
    ("no bytes", raw(""), 1, 0),
    ("01 00000000", raw("01 00000000"), 4, 5),
    ("p from p", image("p <- p"), 9, 13),
    ("p from not p", image("p <- -p"), 9, 13),
    ("A 256", rest("0100 0000 0000 0000 0000"), 0),
    ("A 257", rest("0101 0000 0000 0000 0000"), 5, 5),
    ("P5, rain brings clouds and none is seen",
     image("abducible rain sprinkler cloudy; wet <- rain; wet <- sprinkler; rain -> cloudy; cloudy ->; goal wet"), 0),
    ("P7, empty goal and nothing else", rest(SMALLEST), 0),
    ("P8, one body inside another", image("abducible a b; x <- a b; x <- a; goal x"), 0),
    ("P9, both or neither", image("abducible a b; x <- a b; x <- -a -b; goal x"), 0),
    ("P10, a constraint against the other", image("abducible a; p <- a; p ->; -> a"), 0),
    ("P11, campus unless ski",
     image("abducible saturday snow; campus <- -ski; ski <- saturday -snow; goal campus"), 0),
    ("the longest image, 8,751 bytes", longest(), 0),
]

SHORT = [
    ("one byte, the version", raw("01"), 1, 1),
    ("one byte, another version", raw("02"), 1, 1),
    ("two bytes", raw("01 00"), 1, 2),
    ("three bytes", raw("01 00 00"), 1, 3),
    ("four bytes, one short of a header", raw("01 00 00 00"), 1, 4),
    ("four bytes, another version", raw("ff 00 00 00"), 1, 4),
]

VERSION = [
    ("version 0, nothing after", raw("00 00000000"), 2, 0),
    ("version 2, nothing after", raw("02 00000000"), 2, 0),
    ("version 255", raw("ff 00000000"), 2, 0),
    ("version 2 before a sound rest", raw("02 0000000a " + SMALLEST), 2, 0),
    ("version 3 before a sound rest", raw("03 0000000a " + SMALLEST), 2, 0),
    ("version 0 before a sound rest", raw("00 0000000a " + SMALLEST), 2, 0),
    ("version 129, the right low bits", raw("81 0000000a " + SMALLEST), 2, 0),
    ("version and length wrong", raw("02 0000000b " + SMALLEST), 2, 0),
    ("version and a limit wrong", raw("00 0000000a 0101 0000 0000 0000 0000"), 2, 0),
]

LENGTH = [
    ("length one too small", raw("01 00000009 " + SMALLEST), 3, 1),
    ("length one too great", raw("01 0000000b " + SMALLEST), 3, 1),
    ("length 0 before ten bytes", raw("01 00000000 " + SMALLEST), 3, 1),
    ("length 1 before nothing", raw("01 00000001"), 3, 1),
    ("length with the header counted", raw("01 0000000f " + SMALLEST), 3, 1),
    ("length little-endian", raw("01 0a000000 " + SMALLEST), 3, 1),
    ("length right in its low byte only", raw("01 0000010a " + SMALLEST), 3, 1),
    ("length right in its low two bytes only", raw("01 0001000a " + SMALLEST), 3, 1),
    ("length right in its low three bytes only", raw("01 0100000a " + SMALLEST), 3, 1),
    ("length with every bit set", raw("01 ffffffff " + SMALLEST), 3, 1),
    ("a byte more than the length", raw("01 0000000a " + SMALLEST + "00"), 3, 1),
    ("a byte fewer than the length", raw("01 0000000a 0001 0000 0000 0000 00"), 3, 1),
    ("length wrong and a limit broken", raw("01 0000000b 0101 0000 0000 0000 0000"), 3, 1),
    ("length wrong and fields missing", raw("01 00000004 0001"), 3, 1),
    ("length wrong on a loop", raw("01 00000011 0001 0000 0000 0001 0004 0000 0000 0000"), 3, 1),
]

MISSING = [
    ("half of A", rest("00"), 4, 5),
    ("half of A, a great one", rest("ff"), 4, 5),
    ("B missing", rest("0001"), 4, 7),
    ("half of B", rest("0001 00"), 4, 7),
    ("goal count missing", rest("0001 0000"), 4, 9),
    ("half of the goal count", rest("0001 0000 00"), 4, 9),
    ("clause count missing", rest("0001 0000 0000"), 4, 11),
    ("half of the clause count", rest("0001 0000 0000 00"), 4, 11),
    ("constraint count missing", rest("0001 0000 0000 0000"), 4, 13),
    ("half of the constraint count", rest("0001 0000 0000 0000 00"), 4, 13),
    ("the only goal literal missing", rest("0001 0000 0001"), 4, 11),
    ("half of the only goal literal", rest("0001 0000 0001 00"), 4, 11),
    ("the second goal literal missing", rest("0001 0000 0002 0000"), 4, 13),
    ("the last of 16 goal literals missing", rest("0001 0000 0010 " + "0000 " * 15), 4, 41),
    ("clause count missing after a goal", rest("0001 0000 0001 0000"), 4, 13),
    ("clause record missing", rest(TWO + "0001"), 4, 13),
    ("half of a clause's record length", rest(TWO + "0001 00"), 4, 13),
    ("head missing", rest(TWO + "0001 0002"), 4, 13),
    ("half of a head", rest(TWO + "0001 0002 00"), 4, 13),
    ("body literal missing", rest(TWO + "0001 0004 0001"), 4, 13),
    ("half of a body literal", rest(TWO + "0001 0004 0001 00"), 4, 13),
    ("second clause missing", rest(TWO + "0002 " + FACT), 4, 17),
    ("the last of 512 clauses missing", rest(TWO + "0200 " + FACT * 511), 4, 2057),
    ("512 clauses, none there", rest(TWO + "0200"), 4, 13),
    ("constraint count missing after a clause", rest(TWO + "0001 " + FACT), 4, 17),
    ("constraint record missing", rest("0001 0000 0000 0000 0001"), 4, 15),
    ("half of a constraint's record length", rest("0001 0000 0000 0000 0001 00"), 4, 15),
    ("condition count missing", rest("0001 0000 0000 0000 0001 0002"), 4, 15),
    ("half of a condition count", rest("0001 0000 0000 0000 0001 0002 00"), 4, 15),
    ("second constraint missing", rest("0001 0000 0000 0000 0002 0002 0000"), 4, 19),
    ("128 constraints, none there", rest("0001 0000 0000 0000 0080"), 4, 15),
    ("the last of 128 constraints missing", rest("0001 0000 0000 0000 0080 " + EMPTY_CONSTRAINT * 127), 4, 523),
]

RECORDS = [
    ("clause record length 0", rest(TWO + "0001 0000 0001 0000"), 4, 13),
    ("clause record length 1", rest(TWO + "0001 0001 0001 0000"), 4, 13),
    ("clause record length 3", rest(TWO + "0001 0003 0001 0000"), 4, 13),
    ("clause record length odd and past the end", rest(TWO + "0001 0009 0001 0000"), 4, 13),
    ("clause record length ends with the image", rest(TWO + "0001 0004 0001 0000"), 4, 19),
    ("clause record length two past the end", rest(TWO + "0001 0006 0001 0000"), 4, 13),
    ("clause record length 65,535", rest(TWO + "0001 ffff 0001 0000"), 4, 13),
    ("clause record length 65,534", rest(TWO + "0001 fffe 0001 0000"), 4, 13),
    ("clause record length 32,770", rest(TWO + "0001 8002 0001 0000"), 4, 13),
    ("second clause's record length 1", rest(TWO + "0002 " + FACT + "0001 0001 0000"), 4, 17),
    ("second clause's record length past the end", rest(TWO + "0002 " + FACT + "0006 0001 0000"), 4, 17),
    ("constraint record length 0", rest("0001 0000 0000 0000 0001 0000"), 4, 15),
    ("constraint record length 0, count after it", rest("0001 0000 0000 0000 0001 0000 0000"), 4, 15),
    ("constraint record length 1", rest("0001 0000 0000 0000 0001 0001 0000"), 4, 15),
    ("constraint record length 3", rest("0001 0000 0000 0000 0001 0003 0000 0000"), 4, 15),
    ("constraint record length two past the end", rest("0001 0000 0000 0000 0001 0004 0000"), 4, 15),
    ("constraint record length 65,535", rest("0001 0000 0000 0000 0001 ffff 0000"), 4, 15),
    ("constraint record length 65,534", rest("0001 0000 0000 0000 0001 fffe 0000"), 4, 15),
    ("second constraint's record length odd", rest("0001 0000 0000 0000 0002 0002 0000 0003 0000 00"), 4, 19),
    ("condition count one too great", rest("0001 0000 0000 0000 0001 0002 0001"), 4, 17),
    ("condition count 2 in a record for one", rest("0001 0000 0000 0000 0001 0004 0002 0000"), 4, 17),
    ("condition count fits the image, not its record",
     rest("0001 0000 0000 0000 0002 0002 0001 0002 0000"), 4, 17),
    ("condition count 32,768, doubled beyond 16 bits", rest("0001 0000 0000 0000 0001 0002 8000"), 4, 17),
    ("condition count 32,769 before one literal", rest("0001 0000 0000 0000 0001 0004 8001 0000"), 4, 17),
    ("condition count 65,535", rest("0001 0000 0000 0000 0001 0004 ffff 0000"), 4, 17),
    ("alternative count one too great", rest("0001 0000 0000 0000 0001 0004 0000 0001"), 4, 19),
    ("alternative count 2 before one literal", rest("0001 0000 0000 0000 0001 0006 0000 0002 0000"), 4, 19),
    ("alternative count fits the image, not its record",
     rest("0001 0000 0000 0000 0002 0004 0000 0001 0002 0000"), 4, 19),
    ("alternative count 32,768", rest("0001 0000 0000 0000 0001 0004 0000 8000"), 4, 19),
    ("alternative count 32,769 before one literal", rest("0001 0000 0000 0000 0001 0006 0000 8001 0000"), 4, 19),
    ("alternative count 65,535", rest("0001 0000 0000 0000 0001 0006 0000 ffff 0000"), 4, 19),
    ("second alternative's count one too great",
     rest("0001 0000 0000 0000 0001 0008 0000 0001 0000 0001"), 4, 23),
]

LEFT_OVER = [
    ("a byte left over", rest(SMALLEST + "00"), 4, 15),
    ("a field left over", rest(SMALLEST + "0000"), 4, 15),
    ("left over after a constraint", rest("0001 0000 0000 0000 0001 0002 0000 0000"), 4, 19),
    ("a byte left over after a constraint", rest("0001 0000 0000 0000 0001 0002 0000 00"), 4, 19),
    ("a clause more than the count", rest(TWO + "0001 " + FACT + FACT + "0000"), 4, 19),
    ("a constraint more than the count", rest("0001 0000 0000 0000 0001 0002 0000 0002 0000"), 4, 19),
    ("the longest image and a byte", longest("00"), 4, 8751),
    ("the longest image and a field", longest("0000"), 4, 8751),
]

LIMITS = [
    ("A 0", rest("0000 0000 0000 0000 0000"), 5, 5),
    ("A 0, B missing", rest("0000"), 5, 5),
    ("A 257, B missing", rest("0101"), 5, 5),
    ("A 257, half of B", rest("0101 00"), 5, 5),
    ("A 65,535", rest("ffff 0000 0000 0000 0000"), 5, 5),
    ("A 1, B 1", rest("0001 0001 0000 0000 0000"), 0),
    ("A 1, B 2", rest("0001 0002 0000 0000 0000"), 5, 7),
    ("A 5, B 5", rest("0005 0005 0000 0000 0000"), 0),
    ("A 5, B 6", rest("0005 0006 0000 0000 0000"), 5, 7),
    ("A 5, B 6, goal count missing", rest("0005 0006"), 5, 7),
    ("A 256, B 64", rest("0100 0040 0000 0000 0000"), 0),
    ("A 256, B 65", rest("0100 0041 0000 0000 0000"), 5, 7),
    ("A 64, B 64", rest("0040 0040 0000 0000 0000"), 0),
    ("A 65, B 65", rest("0041 0041 0000 0000 0000"), 5, 7),
    ("A 64, B 65", rest("0040 0041 0000 0000 0000"), 5, 7),
    ("A 256, B 256", rest("0100 0100 0000 0000 0000"), 5, 7),
    ("B 65,535", rest("0100 ffff 0000 0000 0000"), 5, 7),
    ("16 goal literals", rest("0001 0000 0010 " + "0001 " * 16 + "0000 0000"), 0),
    ("17 goal literals", rest("0001 0000 0011 " + "0001 " * 17 + "0000 0000"), 5, 9),
    ("goal count 17, nothing after", rest("0001 0000 0011"), 5, 9),
    ("goal count 65,535", rest("0001 0000 ffff 0000 0000"), 5, 9),
    ("512 clauses", rest(TWO + "0200 " + FACT * 512 + "0000"), 0),
    ("513 clauses", rest(TWO + "0201 " + FACT * 513 + "0000"), 5, 11),
    ("513 clauses, none there", rest(TWO + "0201"), 5, 11),
    ("clause count 65,535", rest(TWO + "ffff 0000"), 5, 11),
    ("1,024 body literals in one clause", rest(TWO + "0001 " + body(1024) + "0000"), 0),
    ("1,025 body literals in one clause", rest(TWO + "0001 " + body(1025) + "0000"), 5, 13),
    ("1,024 body literals in two clauses", rest(TWO + "0002 " + body(1000) + body(24) + "0000"), 0),
    ("1,025 body literals in two clauses", rest(TWO + "0002 " + body(1000) + body(25) + "0000"), 5, 2017),
    ("1,024 body literals in 512 clauses", rest(TWO + "0200 " + body(2) * 512 + "0000"), 0),
    ("1,025 body literals in 512 clauses", rest(TWO + "0200 " + body(2) * 511 + body(3) + "0000"), 5, 4101),
    ("a fact after 1,024 body literals", rest(TWO + "0002 " + body(1024) + FACT + "0000"), 0),
    ("a body literal after 1,024", rest(TWO + "0002 " + body(1024) + body(1) + "0000"), 5, 2065),
    ("128 constraints", rest("0001 0000 0000 0000 0080 " + EMPTY_CONSTRAINT * 128), 0),
    ("129 constraints", rest("0001 0000 0000 0000 0081 " + EMPTY_CONSTRAINT * 129), 5, 13),
    ("129 constraints, none there", rest("0001 0000 0000 0000 0081"), 5, 13),
    ("constraint count 65,535", rest("0001 0000 0000 0000 ffff"), 5, 13),
    ("1,024 condition literals", rest("0001 0000 0000 0000 0001 " + conditions(1024)), 0),
    ("1,025 condition literals", rest("0001 0000 0000 0000 0001 " + conditions(1025)), 5, 17),
    ("1,024 condition literals in two constraints",
     rest("0001 0000 0000 0000 0002 " + conditions(1023) + conditions(1)), 0),
    ("1,025 condition literals in two constraints",
     rest("0001 0000 0000 0000 0002 " + conditions(1023) + conditions(2)), 5, 2067),
    ("1,024 alternatives of one literal", rest("0001 0000 0000 0000 0001 " + singles(1024)), 0),
    ("1,025 alternatives of one literal", rest("0001 0000 0000 0000 0001 " + singles(1025)), 5, 4115),
    ("an alternative of 1,024 literals", rest("0001 0000 0000 0000 0001 " + alternative(1024)), 0),
    ("an alternative of 1,025 literals", rest("0001 0000 0000 0000 0001 " + alternative(1025)), 5, 19),
    ("1,023 conditions and an alternative's literal", rest(NO_CLAUSE + "0001 " + mixed(1023, 1)), 0),
    ("1,024 conditions and an alternative's literal", rest(NO_CLAUSE + "0001 " + mixed(1024, 1)), 5, 2067),
    ("1,000 conditions and 24 alternatives' literals", rest(NO_CLAUSE + "0001 " + mixed(1000, 24)), 0),
    ("1,000 conditions and 25 alternatives' literals", rest(NO_CLAUSE + "0001 " + mixed(1000, 25)), 5, 2019),
    ("an alternative's total counted over constraints",
     rest(NO_CLAUSE + "0003 " + singles(600) + conditions(400) + alternative(25)), 5, 3227),
    ("an empty constraint after a full total",
     rest(NO_CLAUSE + "0002 " + conditions(1024) + EMPTY_CONSTRAINT), 0),
    ("8 literals in each of 128 constraints", rest(NO_CLAUSE + "0080 " + mixed(4, 4) * 128), 0),
    ("a ninth literal in the last of 128 constraints",
     rest(NO_CLAUSE + "0080 " + mixed(4, 4) * 127 + mixed(4, 5)), 5, 2821),
]

ATOMS = [
    ("goal literal of atom A", rest("0003 0001 0001 0006 0000 0000"), 6, 11),
    ("goal literal of atom A, negated", rest("0003 0001 0001 0007 0000 0000"), 6, 11),
    ("goal literal of atom A-1", rest("0003 0001 0001 0004 0000 0000"), 0),
    ("goal literal of atom A-1, negated", rest("0003 0001 0001 0005 0000 0000"), 0),
    ("goal literal 65,535", rest("0003 0001 0001 ffff 0000 0000"), 6, 11),
    ("second goal literal of atom A", rest("0003 0001 0002 0000 0006 0000 0000"), 6, 13),
    ("the last of 16 goal literals of atom A",
     rest("0003 0001 0010 " + "0000 " * 15 + "0006 0000 0000"), 6, 41),
    ("A 256, literal 511", rest("0100 0000 0001 01ff 0000 0000"), 0),
    ("A 256, literal 512", rest("0100 0000 0001 0200 0000 0000"), 6, 11),
    ("head A", rest("0003 0001 0000 0001 0002 0003 0000"), 6, 15),
    ("head A-1", rest("0003 0001 0000 0001 0002 0002 0000"), 0),
    ("head 65,535", rest("0003 0001 0000 0001 0002 ffff 0000"), 6, 15),
    ("head A where every atom is abducible", rest("0001 0001 0000 0001 0002 0001 0000"), 6, 15),
    ("second clause's head A", rest("0003 0001 0000 0002 0002 0002 0002 0003 0000"), 6, 19),
    ("body literal of atom A", rest("0003 0001 0000 0001 0004 0002 0006 0000"), 6, 17),
    ("body literal of atom A, negated", rest("0003 0001 0000 0001 0004 0002 0007 0000"), 6, 17),
    ("body literal of atom A-1", rest("0003 0001 0000 0001 0004 0001 0004 0000"), 0),
    ("second body literal of atom A", rest("0003 0001 0000 0001 0006 0002 0000 0006 0000"), 6, 19),
    ("second clause's body literal of atom A",
     rest("0003 0001 0000 0002 0002 0002 0004 0002 0006 0000"), 6, 21),
    ("the last of 1,024 body literals of atom A",
     rest(TWO + "0001 0802 0001 " + "0000 " * 1023 + "0004 0000"), 6, 2063),
    ("condition literal of atom A", rest("0003 0001 0000 0000 0001 0004 0001 0006"), 6, 19),
    ("condition literal of atom A-1, negated", rest("0003 0001 0000 0000 0001 0004 0001 0005"), 0),
    ("second condition literal of atom A", rest("0003 0001 0000 0000 0001 0006 0002 0000 0006"), 6, 21),
    ("alternative literal of atom A", rest("0003 0001 0000 0000 0001 0006 0000 0001 0006"), 6, 21),
    ("alternative literal of atom A, negated", rest("0003 0001 0000 0000 0001 0006 0000 0001 0007"), 6, 21),
    ("alternative literal of atom A-1", rest("0003 0001 0000 0000 0001 0006 0000 0001 0004"), 0),
    ("second alternative's literal of atom A",
     rest("0003 0001 0000 0000 0001 000a 0000 0001 0000 0001 0006"), 6, 25),
    ("second literal of an alternative of atom A",
     rest("0003 0001 0000 0000 0001 0008 0000 0002 0000 0006"), 6, 23),
    ("second constraint's condition of atom A",
     rest("0003 0001 0000 0000 0002 0002 0000 0004 0001 0006"), 6, 23),
]

HEADS = [
    ("head 0, abducible", rest("0003 0001 0000 0001 0002 0000 0000"), 7, 15),
    ("head 0, nothing abducible", rest("0003 0000 0000 0001 0002 0000 0000"), 0),
    ("head B-1", rest("0005 0003 0000 0001 0002 0002 0000"), 7, 15),
    ("head B", rest("0005 0003 0000 0001 0002 0003 0000"), 0),
    ("B 64, head 63", rest("0100 0040 0000 0001 0002 003f 0000"), 7, 15),
    ("B 64, head 64", rest("0100 0040 0000 0001 0002 0040 0000"), 0),
    ("head 0 where every atom is abducible", rest("0001 0001 0000 0001 0002 0000 0000"), 7, 15),
    ("second clause's head abducible", rest("0005 0003 0000 0002 0002 0003 0002 0002 0000"), 7, 19),
    ("abducible head with a body", rest("0005 0003 0000 0001 0004 0001 0006 0000"), 7, 15),
    ("the last of 512 heads abducible", rest(TWO + "0200 " + FACT * 511 + "0002 0000 0000"), 7, 2059),
]

ALTERNATIVES = [
    ("an alternative without literals", rest("0001 0000 0000 0000 0001 0004 0000 0000"), 8, 19),
    ("no literals after conditions", rest("0001 0000 0000 0000 0001 0006 0001 0000 0000"), 8, 21),
    ("the second alternative without literals",
     rest("0001 0000 0000 0000 0001 0008 0000 0001 0000 0000"), 8, 23),
    ("the first alternative without literals",
     rest("0001 0000 0000 0000 0001 0008 0000 0000 0001 0000"), 8, 19),
    ("a later constraint's alternative without literals",
     rest("0001 0000 0000 0000 0002 0002 0000 0004 0000 0000"), 8, 23),
    ("no literals after a full total",
     rest("0001 0000 0000 0000 0002 " + conditions(1024) + "0004 0000 0000"), 8, 2071),
    ("no literals in the last of 128 constraints",
     rest("0001 0000 0000 0000 0080 " + EMPTY_CONSTRAINT * 127 + "0004 0000 0000"), 8, 527),
    ("no condition, no alternative", rest("0001 0000 0000 0000 0001 0002 0000"), 0),
]

LOOPS = [
    ("a loop through two atoms", image("p <- q; q <- p"), 9, 13),
    ("a loop through three atoms", image("p <- q; q <- r; r <- p"), 9, 13),
    ("a loop through two atoms, one negated", image("p <- q; q <- -p"), 9, 13),
    ("a loop through two atoms, both negated", image("p <- -q; q <- -p"), 9, 13),
    ("an atom above a loop", image("goal x; x <- p; p <- q; q <- p"), 9, 21),
    ("an atom above p from p", image("goal x; x <- p; p <- p"), 9, 21),
    ("a loop above other atoms", image("abducible a; p <- q; q <- p r; r <- a"), 9, 13),
    ("a loop the goal does not reach", image("abducible a; goal x; x <- a; p <- q; q <- p"), 9, 21),
    ("a loop with an empty goal", image("p <- -p; goal"), 9, 13),
    ("a loop only in the second clause", image("abducible a; p <- a; p <- p"), 9, 13),
    ("a loop only in the last body literal", image("abducible a b; p <- a b -a -b p"), 9, 13),
    ("a loop although another clause is a fact", image("p <-; p <- p"), 9, 13),
    ("a loop that no set can make true", image("abducible a; p <- a -a p"), 9, 13),
    ("a loop through the highest of 256 atoms", rest("0100 0000 0000 0001 0004 00ff 01fe 0000"), 9, 13),
    ("a loop behind a fork", image("abducible a; x <- y; x <- z; y <- a; z <- w; w <- -z"), 9, 31),
    ("two loops", image("p <- p; q <- -q"), 9, 13),
    ("a loop through 256 atoms",
     image("; ".join(f"p{i} <- {'-' if i % 3 == 0 else ''}p{(i + 1) % 256}" for i in range(256))), 9, 13),
    ("a chain of 256 atoms", image("; ".join(f"p{i} <- p{i + 1}" for i in range(255))), 0),
    ("a chain of 256 atoms, upwards", image("; ".join(f"p{i + 1} <- p{i}" for i in range(255))), 0),
    ("a chain of 256 atoms, its last on itself",
     image("; ".join(f"p{i} <- p{min(i + 1, 255)}" for i in range(256))), 9, 1543),
    ("a fork that meets again", image("abducible a; x <- y; x <- z; y <- w; z <- -w; w <- a"), 0),
    ("the same atom twice in a body", image("abducible a; x <- y y -y; y <- a"), 0),
    ("250 layers of two mentions",
     image("p0 <-; " + "; ".join(f"p{i + 1} <- p{i} p{i}" for i in range(250))), 0),
    ("a circle through a constraint only", image("p <- q; q -> p; p -> q; q <-"), 0),
    ("an atom in its own constraint", image("defined p; p -> p | -p"), 0),
]

PAIRS = [
    ("A over its limit, then B", rest("0101 0041 0000 0000 0000"), 5, 5),
    ("B over its limit, then goal literals missing", rest("0005 0006 0002"), 5, 7),
    ("goal count over, then a bad goal literal", rest("0001 0000 0011 0002"), 5, 9),
    ("a bad goal literal, then a missing one", rest("0001 0000 0002 0002"), 6, 11),
    ("a sound goal literal, then a missing one", rest("0001 0000 0003 0001 0000"), 4, 15),
    ("a bad goal literal, then 513 clauses", rest("0001 0000 0001 0002 0201"), 6, 11),
    ("a bad goal literal, then an abducible head", rest("0002 0001 0001 0004 0001 0002 0000 0000"), 6, 11),
    ("an abducible head, then a bad body literal", rest("0003 0001 0000 0001 0004 0000 0006 0000"), 7, 15),
    ("a bad body literal, then an abducible head",
     rest("0003 0001 0000 0002 0004 0002 0006 0002 0000 0000"), 6, 17),
    ("an abducible head, then a bad head", rest("0003 0001 0000 0002 0002 0000 0002 0003 0000"), 7, 15),
    ("a bad head, then an abducible head", rest("0003 0001 0000 0002 0002 0003 0002 0000 0000"), 6, 15),
    ("an odd record length before an abducible head", rest("0003 0001 0000 0001 0003 0000 0000"), 4, 13),
    ("an abducible head before an odd record length",
     rest("0003 0001 0000 0002 0002 0000 0003 0002 0000"), 7, 15),
    ("a record past the end before a bad head", rest("0003 0001 0000 0001 0004 0003"), 4, 13),
    ("a record past the end over the total too", rest(TWO + "0001 0804 0001 " + "0000 " * 1024), 4, 13),
    ("over the body total before a bad head",
     rest(TWO + "0001 0804 0009 " + "0000 " * 1025 + "0000"), 5, 13),
    ("over the body total before an abducible head",
     rest(TWO + "0001 0804 0000 " + "0000 " * 1025 + "0000"), 5, 13),
    ("an abducible head before the total is over",
     rest(TWO + "0002 " + "0802 0000 " + "0000 " * 1024 + body(1) + "0000"), 7, 15),
    ("a bad body literal before the total is over",
     rest(TWO + "0002 0802 0001 " + "0000 " * 1023 + "0004 " + body(1) + "0000"), 6, 2063),
    ("over the body total before a bad body literal",
     rest(TWO + "0002 " + body(1024) + "0004 0001 0004 0000"), 5, 2065),
    ("a bad body literal, then 129 constraints", rest("0003 0001 0000 0001 0004 0002 0006 0081"), 6, 17),
    ("129 constraints, then a bad condition", rest("0001 0000 0000 0000 0081 0004 0001 0002"), 5, 13),
    ("a condition count that neither fits nor keeps the total",
     rest("0001 0000 0000 0000 0001 0004 0401 0000"), 4, 17),
    ("a condition count over the total, then a bad literal",
     rest("0001 0000 0000 0000 0001 0804 0401 0002 " + "0000 " * 1024), 5, 17),
    ("a bad condition literal, then an empty alternative",
     rest("0001 0000 0000 0000 0001 0006 0001 0002 0000"), 6, 19),
    ("an empty alternative, then a bad condition literal",
     rest("0001 0000 0000 0000 0002 0004 0000 0000 0004 0001 0002"), 8, 19),
    ("an empty alternative, then a bad alternative literal",
     rest("0001 0000 0000 0000 0001 0008 0000 0000 0001 0002"), 8, 19),
    ("a bad alternative literal, then an empty alternative",
     rest("0001 0000 0000 0000 0001 0008 0000 0001 0002 0000"), 6, 21),
    ("an alternative count that neither fits nor keeps the total",
     rest("0001 0000 0000 0000 0002 " + conditions(1024) + "0004 0000 0001"), 4, 2071),
    ("an alternative count over the total, then a bad literal",
     rest("0001 0000 0000 0000 0002 " + conditions(1024) + "0006 0000 0001 0002"), 5, 2071),
    ("a bad condition literal before the total is over",
     rest("0001 0000 0000 0000 0002 0802 0400 " + "0000 " * 1023 + "0002 " + conditions(1)), 6, 2065),
    ("an empty alternative, then left over", rest("0001 0000 0000 0000 0001 0004 0000 0000 0000"), 8, 19),
    ("a count that does not fit, then an empty alternative",
     rest("0001 0000 0000 0000 0002 0004 0002 0000 0004 0000 0000"), 4, 17),
    ("a bad literal last, then left over", rest("0001 0000 0000 0000 0001 0004 0001 0002 0000"), 6, 19),
    ("a loop, then left over", rest("0001 0000 0000 0001 0004 0000 0000 0000 0000"), 4, 21),
    ("a loop, then a missing constraint", rest("0001 0000 0000 0001 0004 0000 0000 0001"), 4, 21),
    ("a loop, then an empty alternative",
     rest("0001 0000 0000 0001 0004 0000 0000 0001 0004 0000 0000"), 8, 25),
    ("a loop, then a bad condition literal",
     rest("0001 0000 0000 0001 0004 0000 0000 0001 0004 0001 0002"), 6, 25),
    ("a loop, then an abducible head", rest("0002 0001 0000 0002 0004 0001 0002 0002 0000 0000"), 7, 21),
    ("an abducible head on itself", rest("0001 0001 0000 0001 0004 0000 0000 0000"), 7, 15),
    ("a bad goal literal, then a loop", rest("0001 0000 0001 0002 0001 0004 0000 0000 0000"), 6, 11),
    ("a loop, then 129 constraints", rest("0001 0000 0000 0001 0004 0000 0000 0081"), 5, 19),
]

ACCEPTED = [
    ("a goal of both a literal and its negation", rest("0001 0000 0002 0000 0001 0000 0000"), 0),
    ("one fact", rest("0001 0000 0000 0001 0002 0000 0000"), 0),
    ("two equal clauses", rest(TWO + "0002 " + body(1) + body(1) + "0000"), 0),
    ("a negated body literal", rest("0002 0001 0000 0001 0004 0001 0001 0000"), 0),
    ("a constraint of three alternatives",
     rest("0002 0001 0000 0000 0001 0010 0001 0002 0001 0000 0001 0001 0001 0003"), 0),
    ("clauses and constraints of several lengths",
     image("abducible a b c; goal x -y; x <- a b c; x <- -a; y <-; a b -> c | -x y; -> a; x ->"), 0),
    ("every atom abducible, constraints only", image("abducible a b; a -> b; b -> a; -> a | b"), 0),
]

CASES = (EXAMPLES + SHORT + VERSION + LENGTH + MISSING + RECORDS + LEFT_OVER + LIMITS + ATOMS + HEADS
         + ALTERNATIVES + LOOPS + PAIRS + ACCEPTED + places.CASES + places.far(longest()))


def stored():
    """(name, packed case, line), each answer written by hand and met by the reader."""
    for name, packed, number, *place in CASES:
        assert len(place) == (number != 0), name
        answer = f"refused {number} at {place[0]}" if number else "accepted"
        assert line_read(packed) == answer, (name, line_read(packed), answer)
        yield name, pack_read(packed), answer
