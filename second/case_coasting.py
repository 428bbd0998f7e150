"""Cases on what becomes of the coasting mark in the bridge: every set of letters of both strings, in and
around the windows of the announcements and in other zones; refused strings, lengths and rooms; the mark
in place of every byte; and ways that are none."""

from datetime import datetime
from itertools import product
from typing import Iterator, List

from case_parts import (DROPPED, PLAIN, SUMMER, WINTER, WORSE, bridge_case, bridge_with_case, case,
                        local, raw_erlangen, raw_meinberg)

# UTC minute and second, with the zone in which Uni Erlangen's letters are tried: an ordinary one, one in
# both windows, a leap second, and a local minute 59 before its window, at its begin and at its end.
MOMENTS = ((datetime(2024, 2, 29, 11, 34), 56, 22), (datetime(2016, 12, 31, 23, 59), 30, WINTER),
           (datetime(2016, 12, 31, 23, 59), 60, 0), (datetime(2024, 3, 31, 0, 59), 0, -48),
           (datetime(2024, 3, 31, 0, 59), 1, SUMMER), (datetime(2024, 3, 31, 0, 59), 59, 56))
MEINBERG_ZONES = {"U": 0, " ": WINTER, "S": SUMMER}
OFFSETS = (0, WINTER, SUMMER, 22, -14, -48, 56)
# Of either string: times, dates, and a second 60 where none is allowed.
FAULTS = ({"hour": 24}, {"minute": 60}, {"second": 61}, {"day": 0}, {"month": 13}, {"second": 60})
LENGTHS = (0, 1, 2, 30, 31, 33, 34, 66, 67, 69, 70, 100)
ROOMS = (0, 1, 99, 100, 101, 255)
NO_WAYS = (0, 3, 255)
MARKED = (raw_meinberg(coasting=True), raw_erlangen(coasting=True))
FAILED = PLAIN._replace(quality=15)


def each_way(room: int, string: bytes) -> Iterator[bytes]:
    """With no way named, and with each."""
    yield bridge_case(room, string)
    for way in (WORSE, DROPPED):
        yield bridge_with_case(room, way, string)


def meinberg_letters() -> Iterator[bytes]:
    for utc, second, _ in MOMENTS:
        for u, v, x, y in product("# ", "* ", MEINBERG_ZONES, "!A "):
            reading = local(utc, MEINBERG_ZONES[x], second)
            yield from each_way(100, raw_meinberg(reading, letters=u + v + x + y))


def erlangen_letters() -> Iterator[bytes]:
    """Half of them are refused, by the `L` that is or is not there."""
    for utc, second, offset in MOMENTS:
        for a, c, d, f, g, i in product("# ", "* ", "S ", "! ", "A ", "L "):
            letters = a + c + d + f + g + " " + i
            yield from each_way(100, raw_erlangen(local(utc, offset, second), letters=letters))


def zones() -> Iterator[bytes]:
    """Both announcements in other zones, of either quality, with the mark and without."""
    for utc, second, _ in MOMENTS:
        for offset, quality, coasting in product(OFFSETS, (0, 15), (False, True)):
            reading = local(utc, offset, second, summer=offset == SUMMER, leap=True, change=True,
                            quality=quality)
            yield from each_way(100, raw_erlangen(reading, coasting=coasting))


def faulty(coasting: bool) -> List[bytes]:
    """Strings that are refused, by each code and at each place that either string can have."""
    strings = []
    for make in (raw_meinberg, raw_erlangen):
        strings += [make(PLAIN._replace(**fault), coasting=coasting) for fault in FAULTS]
        strings += [make(weekday=weekday, coasting=coasting) for weekday in (0, 3)]
        strings += [b"\x00" + make(coasting=coasting)[1:], make(coasting=coasting)[:-1] + b"\x00"]
    strings += [raw_erlangen(offset=offset, coasting=coasting)
                for offset in ("-00:00", "+14:15", "+01:20")]
    strings += [raw_erlangen(letters=" %s    L" % ("*" if coasting else " ")),
                raw_erlangen(position=b"\x7f" * 26, coasting=coasting)]
    return strings


def refused() -> Iterator[bytes]:
    for coasting in (True, False):
        for string in faulty(coasting):
            yield from each_way(100, string)
    for string in MARKED:
        for length in LENGTHS:
            yield from each_way(100, (string * 4)[:length])


def rooms() -> Iterator[bytes]:
    for string in (*MARKED, raw_meinberg(), raw_erlangen(), raw_meinberg(FAILED, coasting=True),
                   raw_erlangen(FAILED, coasting=True), *faulty(True)[::6], MARKED[0][:31]):
        for room in ROOMS:
            yield from each_way(room, string)


def in_every_place() -> Iterator[bytes]:
    """Each string has one place where it is the mark; in the position part it is one of 26 bytes."""
    for string in (raw_meinberg(), raw_erlangen()):
        for place in range(len(string)):
            for way in (WORSE, DROPPED):
                yield bridge_with_case(100, way, string[:place] + b"*" + string[place + 1:])


def no_ways() -> Iterator[bytes]:
    """Ways that are none, whatever the room and the string; payloads without a way or without a string;
    and each op with the other's payload, where a string's first byte stands for the way."""
    for way, room, string in product(NO_WAYS, (0, 100), (*MARKED, faulty(True)[0], b"")):
        yield bridge_with_case(room, way, string)
    yield case(16)
    for room in ROOMS:
        yield case(16, bytes((room,)))
        yield from each_way(room, b"")
    for string in MARKED:
        yield case(16, bytes((100,)) + string)
        yield case(10, bytes((100, WORSE)) + string)


def make() -> Iterator[bytes]:
    for part in (meinberg_letters, erlangen_letters, zones, refused, rooms, in_every_place, no_ways):
        yield from part()
