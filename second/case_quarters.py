"""Cases on offsets in quarter hours: every number at every writer and at stamping; in some hours, all
minutes of an offset that a string can say; every offset at the bridge; odd quarters, which a frame does
not carry, beside every other fault; second 60 and the ends of days, months and the hundred years in
zones of odd quarters; and books of such strings."""

from datetime import datetime, timedelta
from itertools import product
from typing import Iterator, List

from case_coasting import each_way
from case_months import told
from case_parts import (PLAIN, POSITION, case, local, raw_erlangen, raw_frame, raw_meinberg,
                        reading_bytes, write_case)
from case_places import ERLANGEN_FAULTS, WRITER_FAULTS, asked, combined, in_books, string_with
from reading import HIGHEST_OFFSET, LOWEST_OFFSET, Reading

OFFSETS = range(LOWEST_OFFSET, HIGHEST_OFFSET + 1)
ODD_OFFSETS = (1, -1, 23, -37, 55, -47)  # +00:15 -00:15 +05:45 -09:15 +13:45 -11:45
ODD_OUTSIDE = (57, -49, 127, -127)
ODD_TEXTS = {"+05:45": 23, "-09:15": -37}
HOURS = (0, 1, 5, 9, 12, 14, 15)
MINUTE = timedelta(minutes=1)
# Of a reading and of a string: what else can be wrong with it.
READING_FAULTS = [fault for fault in WRITER_FAULTS if fault[0] != "offset"]
STRING_FAULTS = [fault for fault in ERLANGEN_FAULTS if fault[0] != "offset"]
# 00:00 UTC after a leap second, after the end of February, and at both ends of the hundred years.
FIRSTS = (datetime(2017, 1, 1), datetime(2024, 3, 1), datetime(2000, 1, 1), datetime(2100, 1, 1))
# Minutes from there, and the second: around it, and second 60 where a zone a quarter or a half hour
# away would have it.
AROUND = ((-1, 59), (-1, 60), (0, 0), (0, 60), (-16, 60), (14, 60), (-31, 60), (29, 60))


def numbers() -> Iterator[bytes]:
    """Every number as the offset of a reading, in summer and not where the zone goes by that too."""
    for offset in range(-128, 128):
        reading = PLAIN._replace(offset=offset, summer=offset % 3 == 0)
        yield write_case(6, reading, 0, 68, POSITION)
        yield write_case(7, reading, 0, 100)
        yield case(9, reading_bytes(reading))
        for summer in (False, True):
            yield write_case(5, reading._replace(summer=summer), 0, 32)
            yield write_case(8, reading._replace(summer=summer, second=0), 0, 60)


def said() -> Iterator[bytes]:
    """All minutes of an offset, good or not, with either sign."""
    for sign, hours, minutes in product("+-", HOURS, range(100)):
        yield case(1, raw_erlangen(offset="%s%02d:%02d" % (sign, hours, minutes)))


def bridged() -> Iterator[bytes]:
    """Every offset that a string can say, with the coasting mark and without, at rooms around that of
    a frame."""
    strings = [raw_erlangen(PLAIN._replace(offset=offset, summer=offset % 3 == 0),
                            coasting=bool(offset & 2)) for offset in OFFSETS]
    strings += [raw_meinberg(letters="  %s " % zone) for zone in "U S"]
    for string, room in product(strings, (99, 100, 101)):
        yield from each_way(room, string)


def faulty_readings() -> Iterator[bytes]:
    """Odd quarters, within the range and outside it, beside other faults; at the frame's writer beside
    two and three."""
    for offset, faults in product(ODD_TEXTS.values(), combined(READING_FAULTS)):
        yield asked(7, PLAIN._replace(offset=offset), faults)
    for offset, fault in product(ODD_OUTSIDE, READING_FAULTS):
        yield asked(7, PLAIN._replace(offset=offset), dict((fault,)))
    for op, fault in product((5, 6, 8, 9), READING_FAULTS):
        yield asked(op, PLAIN._replace(offset=23, second=0), dict((fault,)))
    for offset, room in product(ODD_OFFSETS + ODD_OUTSIDE, (0, 99, 100, 101, 255)):
        yield asked(7, PLAIN._replace(offset=offset), {"room": room})


def faulty_strings() -> Iterator[bytes]:
    """Strings that say an odd quarter, each with another fault, at the bridge."""
    for text, fault, room in product(ODD_TEXTS, STRING_FAULTS, (99, 100)):
        yield from each_way(room, string_with(raw_erlangen, {"offset": text, **dict((fault,))}))


def around_midnights() -> List[Reading]:
    """What clocks in zones of odd quarters say around 00:00 UTC, within the hundred years."""
    readings = [local(first + minutes * MINUTE, offset, second, leap=second == 59)
                for first in FIRSTS for minutes, second in AROUND for offset in ODD_OFFSETS]
    return [reading for reading in readings if 2000 <= reading.year <= 2099]


def midnights() -> Iterator[bytes]:
    """Read, bridged, stamped and written."""
    for reading in around_midnights():
        yield from told(reading)
        yield write_case(6, reading, 0, 68, POSITION)
        yield write_case(7, reading, 0, 100)


def books() -> Iterator[bytes]:
    """Strings of every offset; and what is said around 00:00 UTC, after each a frame of the next half
    hour and a string whose offset is none."""
    yield from in_books([(2, raw_erlangen(PLAIN._replace(offset=offset))) for offset in OFFSETS])
    records = []
    for number, reading in enumerate(around_midnights()[::5]):
        beside = PLAIN._replace(offset=reading.offset + 1)
        bad = "+05:%02d" % (number % 60) if number % 15 else "-00:00"
        records += [(2, raw_erlangen(reading)), (3, bytes(raw_frame(beside))),
                    (2, raw_erlangen(reading, offset=bad))]
    yield from in_books(records)


def changes() -> Iterator[bytes]:
    """Every one-byte change of strings at an odd quarter and at the end of the range."""
    for offset in (23, 56):
        yield case(20, raw_erlangen(PLAIN._replace(offset=offset)))


def make() -> Iterator[bytes]:
    for part in (numbers, said, bridged, faulty_readings, faulty_strings, midnights, books, changes):
        yield from part()
