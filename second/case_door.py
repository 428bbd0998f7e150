"""Cases on which of the two strings an input is: every length, good strings cut, padded and joined to
lengths beside their own and to each other's, each read and bridged with room and without; books whose
kind is not that of the string after it; and ops that are none."""

from datetime import datetime
from typing import Iterator, List

from case_parts import (DROPPED, PLAIN, SUMMER, bridge_case, bridge_with_case, case, local,
                        raw_erlangen, raw_meinberg)

LEAP_SECOND = local(datetime(2016, 12, 31, 23, 59), 0, 60, leap=True)
SHORT = (raw_meinberg(), raw_meinberg(LEAP_SECOND),
         raw_meinberg(PLAIN._replace(offset=SUMMER, change=True, quality=15), coasting=True))
# The last has the text of a Meinberg string for its position part.
LONG = (raw_erlangen(), raw_erlangen(LEAP_SECOND),
        raw_erlangen(PLAIN._replace(offset=-14, change=True, quality=15), coasting=True),
        raw_erlangen(position=raw_meinberg()[1:27]))
REFUSED = (
    raw_meinberg(PLAIN._replace(hour=24)), raw_meinberg(PLAIN._replace(month=13)),
    raw_meinberg(weekday=3), raw_meinberg(PLAIN._replace(second=60)), raw_meinberg(letters="?   "),
    raw_erlangen(PLAIN._replace(minute=60)), raw_erlangen(PLAIN._replace(day=30)),
    raw_erlangen(weekday=3), raw_erlangen(offset="-00:00"), raw_erlangen(letters="      L"),
    raw_erlangen(position=b"\x7f" * 26), bytes(32), bytes(68), b"\xff" * 32, b"\xff" * 68)
# Among the last, 32 and 68 with once and twice 256 more.
LENGTHS = (*range(141), 288, 324, 544, 580, 1000, 3900)
NEAR = (31, 32, 33, 36, 64, 67, 68, 69, 100)
FILLERS = (b" ", b"\x00", b"\n")
NO_OPS = (0, 2, 17, 18, 19, 21, 24, 25, 255)


def told(string: bytes) -> Iterator[bytes]:
    """Read; bridged with room for a frame, also with the mark dropped; and with too little room, which is
    refused whatever it is."""
    yield case(1, string)
    yield bridge_with_case(100, DROPPED, string)
    for room in (100, 99, 0):
        yield bridge_case(room, string)


def fitted(string: bytes, length: int, filler: bytes) -> List[bytes]:
    """The string cut or padded to a length, once at its end and once at its start."""
    missing = filler * (length - len(string))
    return [(string + missing)[:length], (missing + string)[-length:]]


def lengths() -> Iterator[bytes]:
    """Every length, of a good string said over and over."""
    for string in (SHORT[0], LONG[0]):
        for length in LENGTHS:
            yield from told((string * (length // len(string) + 1))[:length])


def cut_and_padded() -> Iterator[bytes]:
    """Good strings brought to lengths beside their own and to the other's."""
    for string in SHORT + LONG:
        for length in NEAR:
            for filler in FILLERS if length > len(string) else FILLERS[:1]:
                for other in fitted(string, length, filler):
                    yield from told(other)


def joined() -> Iterator[bytes]:
    """Inputs that begin or end with a good string or with half of one: two strings with four bytes
    beside or between them, one with what the other lacks, and both."""
    for one in SHORT:
        for two in SHORT:
            for four in (b"    ", b"\x03\x02\x03\x02", b"\x01\x01\x01\x01"):
                for string in (one + two + four, one + four + two, four + one + two):
                    yield from told(string)
        for long in LONG:
            for string in (one + long[32:], long[:36] + one, long[:31] + one[31:],
                           one[:16] + long[16:32], one[:31] + long[31:], one[:31] + bytes(36) + b"\x03",
                           one + long, long + one):
                yield from told(string)


def refused() -> Iterator[bytes]:
    """Strings of either length that are refused by each code they can have; room goes first."""
    for string in REFUSED:
        yield from told(string)
        for room in (1, 32, 68, 101, 255):
            yield bridge_case(room, string)


def books() -> Iterator[bytes]:
    """The kind fixes the length, whatever follows it: a Uni Erlangen string after a 1, Meinberg strings
    after a 2, as many bytes of them as the kind takes and whole; good records go before and after."""
    good = b"\x01" + SHORT[1] + b"\x02" + LONG[1]
    for short in SHORT:
        for long in LONG:
            taken = [b"\x02" + short + long[32:], b"\x02" + short + bytes(36)]
            taken += [b"\x01" + other for other in fitted(long, 32, b"")]
            taken += [b"\x02" + other for other in fitted(short * 3, 68, b"")]
            whole = [b"\x01" + long, b"\x02" + short, b"\x02" + short + short,
                     b"\x02" + short + b"\x01" + short + b"\x01" + short]
            for record in taken + whole:
                yield case(13, record)
                yield case(13, good + record + good)
            yield case(13, good + b"".join(taken) + good)


def ops_that_are_none() -> Iterator[bytes]:
    """A good string does not help an op that nothing answers."""
    for op in NO_OPS:
        for string in (b"", SHORT[0], LONG[0]):
            yield case(op, string)


def make() -> Iterator[bytes]:
    for part in (lengths, cut_and_padded, joined, refused, books, ops_that_are_none):
        yield from part()
    yield case(20, LONG[0][:7])
