"""Cases on bases: the leap seconds of the nineties and those since, both ends of each hundred and of the
stamps, every pair of year digits and every year near the two hundreds, the calendar of the nineties,
telegrams and runs of pulses, all under both bases and most under one that is none; and what is no base,
beside every other fault. (case_base_telegrams.py has the telegrams.)"""

import random
from datetime import datetime, timedelta
from itertools import chain
from typing import Iterable, Iterator, List, Tuple

import case_base_telegrams
import case_minutes
import case_places
from case_coasting import each_way
from case_months import ALWAYS, NEVER, book_around, told, written
from case_others import book_records
from case_parts import (ASKED, NO_BASES, PLAIN, POSITION, REAL_LEAP_DAYS, SUMMER, WINTER, asked_bytes,
                        at_base, bridge_case, case, german_minute, local, raw_erlangen, raw_frame,
                        raw_meinberg, raw_minute, reading_bytes, write_case)
from case_streams import DAMAGES, damaged, frames_from, minutes_from
from reading import Reading

BOTH = (1990, 2000)
ONE_MORE = (*BOTH, 1999)  # which is none
LEAP_DAYS = ((1990, 12, 31), (1992, 6, 30), (1993, 6, 30), (1994, 6, 30), (1995, 12, 31),
             (1997, 6, 30), (1998, 12, 31), *REAL_LEAP_DAYS)
OFFSETS = (0, WINTER, SUMMER, 23, -48, 56)
MORE_OFFSETS = (*OFFSETS, 1, -1, 22, -14)
MINUTE = timedelta(minutes=1)
DAY = timedelta(days=1)
# 00:00 UTC at the ends of the hundreds, of the stamps and of the days before 2000.
ENDS = (datetime(1990, 1, 1), datetime(2000, 1, 1), datetime(2090, 1, 1), datetime(2100, 1, 1))
# Local time, second and offset: case 9, the second before day 0, the smallest and the largest stamp
# with the seconds beside them, UTC years that no year of a base's hundred is.
SINGLE = (
    (2000, 1, 1, 0, 30, 0, WINTER), (2000, 1, 1, 0, 59, 59, WINTER), (2000, 1, 1, 0, 59, 60, WINTER),
    (2000, 1, 1, 1, 0, 0, WINTER), (1990, 1, 1, 0, 0, 0, 0), (1990, 1, 1, 0, 0, 1, 0),
    (1990, 1, 1, 0, 59, 60, WINTER), (1990, 1, 1, 1, 0, 0, WINTER), (1990, 1, 1, 13, 59, 60, 56),
    (1990, 1, 1, 14, 0, 0, 56), (2099, 12, 31, 23, 59, 59, 0), (2099, 12, 31, 23, 59, 60, 0),
    (2099, 12, 31, 11, 59, 60, -48), (2099, 12, 31, 12, 0, 0, -48), (2099, 12, 31, 23, 0, 0, -48),
    (2089, 12, 31, 23, 0, 0, -48), (2089, 12, 31, 11, 59, 60, -48), (2089, 12, 31, 12, 0, 0, -48),
    (1999, 12, 31, 23, 59, 60, 0), (1999, 12, 31, 12, 0, 0, -48), (1999, 12, 31, 23, 0, 0, -48))
# What has no stamp, by a base that has the year: UTC in 1989 and in 2100.
UNSTAMPED = ((1990, Reading(1990, 1, 1, 0, 30, 0, WINTER, False, False, False, 0)),
             (2000, Reading(2099, 12, 31, 23, 0, 0, -48, False, False, False, 0)))
NINETIES = PLAIN._replace(year=1996)
SPRING = datetime(1994, 3, 27, 1)
OTHER_YEARS = (0, 1, 90, 99, 100, 1890, 1899, 1900, 2189, 2190, 2199, 3990, 4000, 9999, 10000, 32768,
               65535)


def both_minutes(reading: Reading) -> Iterator[bytes]:
    """Its minute written, and read in both lengths."""
    yield from case_minutes.both(reading._replace(second=0), reading.year % 128)


def everywhere(reading: Reading) -> Iterator[bytes]:
    """Read, bridged, stamped and written, but as a minute."""
    yield from told(reading)
    yield from written(reading)


def frames_around(first: datetime) -> bytes:
    """The last two seconds of a month, the leap second and the two after it."""
    sixty = raw_frame(local(first - MINUTE, WINTER, 60))
    return frames_from(first - timedelta(seconds=2), 2) + bytes(sixty) + frames_from(first, 2)


def around_leap_second(first: datetime) -> Iterator[bytes]:
    """The seconds 59 and 60 and the one after in some zones, the minute that names it announced and not
    and in both zones, as runs of pulses, and as a book."""
    for utc, second in ((first - MINUTE, 59), (first - MINUTE, 60), (first, 0)):
        for offset in OFFSETS:
            yield from everywhere(local(utc, offset, second, summer=offset == SUMMER, leap=second > 0))
    for summer in (True, False):
        for leap in (True, False):
            yield from both_minutes(german_minute(first, summer, leap=leap))
        summer_until = ALWAYS if summer else NEVER
        yield case(12, minutes_from(first - 2 * MINUTE, 4, NEVER, summer_until, first))
    yield case(11, frames_around(first))
    yield case(13, book_around(first))


def leap_seconds() -> Iterator[bytes]:
    for base in ONE_MORE:
        for day in LEAP_DAYS:
            yield from at_base(base, around_leap_second(datetime(*day) + DAY))


def month_ends() -> Iterator[bytes]:
    """Second 60 at every month end of two years of the nineties, and a day too early."""
    for month in range(24):
        first = datetime(1992 if month < 12 else 1999, month % 12 + 1, 1)
        for utc in (first - MINUTE, first - MINUTE - DAY):
            for offset in (0, WINTER, -14):
                yield from at_base(1990, told(local(utc, offset, 60, leap=True)))


def ends() -> Iterator[bytes]:
    """Around the ends of the hundreds, in zones on both sides of them; and the readings that say the
    smallest stamp, the largest and those beside them, each also as a record alone in its book."""
    for base in ONE_MORE:
        for first in ENDS:
            for utc, second in ((first - MINUTE, 59), (first - MINUTE, 60), (first, 0)):
                for offset in MORE_OFFSETS:
                    yield from at_base(base, everywhere(local(utc, offset, second)))
        for *at, offset in SINGLE:
            reading = Reading(*at, offset, False, False, False, 0)
            yield from at_base(base, everywhere(reading))
            yield from at_base(base, both_minutes(reading))
            yield from at_base(base, in_books_alone(reading))


def in_books_alone(reading: Reading) -> Iterator[bytes]:
    """A book of one record, of each kind that can tell the second; the string's two."""
    for kind, body in ((1, raw_meinberg(reading)), (2, raw_erlangen(reading)),
                       (3, raw_frame(reading)), (4, raw_minute(reading, 0, 60))):
        yield case(13, bytes((kind,)) + bytes(body))


def read_and_bridged(reading: Reading) -> Iterator[bytes]:
    """By each reader; the weekday is that of the reading's own year."""
    yield case(1, raw_meinberg(reading))
    yield case(1, raw_erlangen(reading))
    yield case(3, raw_frame(reading))
    yield case(4, raw_minute(reading, 0, 60))
    yield bridge_case(100, raw_meinberg(reading))
    yield case(13, b"\x01" + raw_meinberg(reading) + b"\x03" + bytes(raw_frame(reading)))


def by_each_writer(reading: Reading) -> Iterator[bytes]:
    yield write_case(5, reading, 0, 32)
    yield write_case(6, reading, 1, 68, POSITION)
    yield write_case(7, reading, 0, 100)
    yield write_case(8, reading._replace(second=0), reading.year % 128, 60)
    yield case(9, reading_bytes(reading))


def years() -> Iterator[bytes]:
    """Every pair of digits, by the weekday of each year that has them, at each base; and years in and
    around the hundreds, and far from them, written and stamped."""
    for base in BOTH:
        for digits in range(100):
            for year in (2000 + digits, 1900 + digits)[:2 if digits >= 90 else 1]:
                at = datetime(year, digits % 12 + 1, digits % 28 + 1, digits % 24, digits % 60)
                yield from at_base(base, read_and_bridged(local(at, 0, digits % 60)._replace(
                    offset=WINTER)))
    for base in ONE_MORE:
        for year in (*range(1988, 2102), *OTHER_YEARS):
            yield from at_base(base, by_each_writer(PLAIN._replace(year=year, day=28)))


def calendars() -> Iterator[bytes]:
    """Days around the ends of February and of the year, by the weekday of the nineties and of a hundred
    years later; days of the year; and every weekday of two leap days."""
    for base in BOTH:
        for year in (*range(1990, 2000), *range(2090, 2100)):
            for month, day in ((1, 1), (2, 28), (2, 29), (3, 1), (12, 31)):
                reading = PLAIN._replace(year=year, month=month, day=day)
                yield from at_base(base, read_and_bridged(reading))
                yield case(9, reading_bytes(reading), base)
            for day in (0, 1, 59, 60, 61, 365, 366, 367):
                yield case(3, raw_frame(PLAIN._replace(year=year), day_of_year=day), base)
        for year in (1992, 1996):
            for weekday in range(10):
                reading = PLAIN._replace(year=year)
                yield case(1, raw_meinberg(reading, weekday), base)
                yield case(1, raw_erlangen(reading, weekday), base)
                yield case(4, raw_minute(reading, weekday=weekday % 8), base)


def good_inputs() -> Iterator[bytes]:
    """Every op, with what it takes."""
    frame, minute = bytes(raw_frame(NINETIES)), bytes(raw_minute(NINETIES))
    long = raw_minute(case_places.LONG)
    for string in (raw_meinberg(NINETIES), raw_erlangen(NINETIES)):
        yield case(1, string)
        yield from each_way(100, string)
    yield case(3, frame)
    yield case(4, minute)
    yield case(4, long)
    yield from by_each_writer(NINETIES)
    yield write_case(8, case_places.LONG, 5, 61)
    yield case(11, frame + frame[1:])
    yield case(12, b"\x02" + minute + bytes(long))
    yield case(13, b"\x01" + raw_meinberg(NINETIES) + b"\x03" + frame + b"\x04" + minute)
    yield case(13)
    yield case(14)
    yield case(15, asked_bytes(ASKED))


def faulty_inputs() -> Iterator[bytes]:
    """Every op, with what goes before a base (another length, too little room, a payload that is bad),
    and with what does not."""
    for string in (raw_meinberg(NINETIES), raw_erlangen(NINETIES)):
        for other in (string[:-1], string + b" ", string[:-1] + b"\x00", b""):
            yield case(1, other)
            yield bridge_case(100, other)
        yield from each_way(99, string)
        yield from each_way(99, string[:-1] + b"\x00")
    for op, pulses in ((3, raw_frame(NINETIES)), (4, raw_minute(NINETIES))):
        for other in (pulses[:-1], pulses + b"\x02", pulses[:-1] + b"\x00", b"\x01" + pulses[1:], b""):
            yield case(op, other)
    for op, room in ((5, 31), (6, 67), (7, 99), (8, 59)):
        for reading in (NINETIES, NINETIES._replace(hour=24, year=0)):
            yield write_case(op, reading, 0, room, POSITION if op == 6 else b"")
            yield write_case(op, reading, 65535, room + 1, POSITION if op == 6 else b"")
    for position in (POSITION[:25], POSITION + b" ", b"", b"\x7f" + POSITION[1:], b"\x00" * 26):
        yield write_case(6, NINETIES, 0, 68, position)
    yield write_case(8, case_places.LONG, 0, 60)
    for fault in ({"hour": 24}, {"year": 0}, {"quality": 16}, {"offset": 57}, {"second": 60}):
        yield from by_each_writer(NINETIES._replace(**fault))
    for op in (0, 2, 5, 9, 10, 15, 16, 17, 21, 255):
        yield case(op)
    yield case(16, b"\x64\x03" + raw_meinberg(NINETIES))


def broken_books() -> Iterator[bytes]:
    """Books that end in a kind that is none, and in a body that is not whole."""
    good = b"\x01" + raw_meinberg(NINETIES)
    for tail in (b"\x00", b"\x06", b"\xff", good[:1], good[:32], b"\x03" + bytes(99)):
        yield case(13, tail)
        yield case(13, good + tail)
        yield case(13, good + b"\x01" + raw_meinberg(NINETIES, weekday=0) + tail)


def no_bases() -> Iterator[bytes]:
    for base in (*NO_BASES, *BOTH):
        for inputs in (good_inputs, faulty_inputs, broken_books, case_base_telegrams.in_their_places):
            yield from at_base(base, inputs())


def near_bases() -> Iterator[bytes]:
    """Numbers that differ from a base in one of the two bytes."""
    for byte in range(256):
        for base in (0x0700 + byte, byte * 256 + 0xC6, byte * 256 + 0xD0):
            yield case(9, reading_bytes(NINETIES._replace(year=2000)), base)
            yield case(1, raw_meinberg(PLAIN), base)


def every_fault() -> Iterator[bytes]:
    """Each fault of an input and of a reading alone, and some pairs, on a day that both hundreds have;
    and each of a reading that has no stamp."""
    singles: List[bytes] = []
    for make, faults in ((raw_meinberg, case_places.MEINBERG_FAULTS),
                         (raw_erlangen, case_places.ERLANGEN_FAULTS)):
        for fault in case_places.together(faults, 1):
            string = case_places.string_with(make, fault)
            singles += [case(1, string), bridge_case(100, string), bridge_case(99, string)]
    singles += [case(3, frame) for frame in case_places.frames()[:40]]
    singles += [case(4, minute) for minute in case_places.minutes()[:40]]
    for fault in case_places.together(case_places.WRITER_FAULTS, 1):
        singles += [case_places.asked(op, PLAIN, fault) for op in (5, 6, 7, 8)]
        if "room" not in fault:
            singles.append(case_places.asked(9, PLAIN, fault))
    for base in (1990, 1999):
        yield from at_base(base, singles)
    for base, at in UNSTAMPED:
        for fault in case_places.together(case_places.WRITER_FAULTS, 1):
            if "room" not in fault:
                yield from at_base(base, [case_places.asked(9, at, fault)])


def books() -> Iterator[bytes]:
    """Records of every kind, accepted and refused, each alone and all after one another."""
    every = book_records()
    for base in ONE_MORE:
        yield from at_base(base, (case(13, record) for record in every))
        for start in range(0, len(every), 20):
            yield case(13, b"".join(every[start:start + 20]), base)


def pulses() -> Iterator[bytes]:
    """Runs of frames over a leap second and of minutes over a change of the nineties, and damaged."""
    runs: Iterable[Tuple[int, bytes]] = (
        (11, frames_around(datetime(1994, 7, 1))), (11, frames_around(datetime(2000, 1, 1))),
        (12, minutes_from(SPRING - 3 * MINUTE, 6, SPRING, ALWAYS, NEVER)),
        (12, minutes_from(datetime(1998, 12, 31, 23, 58), 5, NEVER, NEVER, datetime(1999, 1, 1))))
    dice = random.Random(1994)
    for op, run in runs:
        others = [damaged(run, damage, dice.randrange(len(run) - 1), dice)
                  for damage in DAMAGES for _ in range(4)]
        for base in ONE_MORE:
            yield from at_base(base, (case(op, stream) for stream in (run, run[1:], *others)))


def changes() -> Iterator[bytes]:
    """Every one-byte change of inputs of the nineties; at a base that is none of a short one."""
    sixty = local(datetime(1994, 6, 30, 23, 59), SUMMER, 60, summer=True)
    long = german_minute(datetime(1999, 1, 1), False, leap=True)
    inputs = (case(20, raw_meinberg(sixty)), case(20, raw_erlangen(sixty)), case(22, raw_frame(sixty)),
              case(23, raw_minute(long)))
    yield from at_base(1990, inputs)
    yield case(20, raw_meinberg(sixty), 2000)
    yield case(20, raw_meinberg(sixty), 1999)
    yield from at_base(1999, (case(op, raw_frame()[:3]) for op in (20, 22, 23)))


def make() -> Iterator[bytes]:
    return chain.from_iterable(part() for part in (
        leap_seconds, month_ends, ends, years, calendars, no_bases, near_bases, every_fault, books,
        pulses, case_base_telegrams.make, changes))
