"""Cases on IEEE 1344 frames: year ends and leap days of all hundred years, every offset, every
day of a year, cases 6, 7 and 10 of document 01, every refusal, every one-byte change."""

from datetime import datetime, timedelta
from typing import Iterator

import ieee1344
from case_parts import (PLAIN, REAL_LEAP_DAYS, SUMMER, WINTER, case, local, mend_frame, raw_frame,
                        with_pulses, write_case)
from layout import put_field
from reading import Reading

BCD_DIGIT_STARTS = (1, 10, 20, 30, 35, 50, 55)  # four pulses each
ALWAYS_ZERO = (5, 14, 18, 24, 27, 28, 34, 42, 43, 44, 45, 46, 47, 48, 54, 76, 77, 78, 98)


def both(reading: Reading, room: int = 100) -> Iterator[bytes]:
    """The reading written, and its raw frame read, where it has one."""
    yield write_case(7, reading, 0, room)
    if not ieee1344.cannot_carry(reading):
        yield case(3, raw_frame(reading))


def year_ends() -> Iterator[bytes]:
    """Around every year end and leap day of 2000..2099."""
    for year in range(2000, 2100):
        moments = [Reading(year, 12, 31, 23, 59, second, 0, False, second < 60, False, 0)
                   for second in (58, 59, 60)]
        moments += [Reading(year, 1, 1, 0, 0, 0, WINTER, False, False, False, 15),
                    Reading(year, 1, 1, 0, 59, 60, WINTER, False, False, False, 0),
                    Reading(year, 7, 1, 1, 59, 60, SUMMER, True, False, False, 0),
                    Reading(year, 2, 28, 23, 59, 59, WINTER, False, False, False, year % 16)]
        if year % 4 == 0:
            moments.append(Reading(year, 2, 29, 23, 59, 59, -14, False, False, False, 1))
        moments.append(Reading(year, 3, 1, 0, 0, 0, 22, True, False, True, 0))
        for reading in moments:
            yield from both(reading)
        yield write_case(7, Reading(year, 2, 29, 0, 0, 0, WINTER, False, False, False, 0), 0, 100)
        for day in (0, 1, 59, 60, 61, 365, 366, 367, 399):
            yield case(3, raw_frame(PLAIN._replace(year=year), day_of_year=day))


def every_day() -> Iterator[bytes]:
    for year in (2023, 2024):
        at = datetime(year, 1, 1, 6, 7)
        while at.year == year:
            reading = Reading(year, at.month, at.day, at.timetuple().tm_yday % 24, at.day % 60,
                              at.month, WINTER, False, False, False, 0)
            yield from both(reading, 101)
            at += timedelta(days=1)


def offsets() -> Iterator[bytes]:
    """Every offset as written, and every sign, hours, half hour as read; case 10."""
    for offset in [*range(-50, 59), -128, -127, 126, 127]:
        yield write_case(7, PLAIN._replace(offset=offset), 0, 100)
    for minus in (0, 1):
        for hours in range(16):
            for half in (0, 1):
                yield case(3, raw_frame(minus=minus, offset_hours=hours, offset_half_hour=half))
    for year, month, day in REAL_LEAP_DAYS:
        for offset in range(-48, 57):
            for second in (59, 60):
                yield from both(local(datetime(year, month, day, 23, 59), offset, second,
                                      summer=offset % 3 == 0, leap=second == 59))
            yield from both(local(datetime(year, month, day, 23, 58), offset, 60))


def times() -> Iterator[bytes]:
    """Every hour, minute and second a frame can say, flags and quality, and document 01's cases."""
    for name, largest in (("second", 79), ("minute", 79), ("hour", 39)):
        for value in range(largest + 1):
            yield case(3, raw_frame(**{name: value}))
    for quality in range(16):
        for flags in range(8):
            reading = PLAIN._replace(quality=quality, summer=bool(flags & 1), leap=bool(flags & 2),
                                     change=bool(flags & 4))
            yield from both(reading)
    frame = raw_frame()
    yield case(3, frame)  # case 6
    yield case(3, with_pulses(frame, (84,), 0))  # case 7
    yield case(3, raw_frame(minus=1, offset_hours=14, offset_half_hour=0))  # case 10
    yield case(3, raw_frame(minus=1, offset_hours=14, offset_half_hour=1))
    yield case(3, raw_frame(minus=0, offset_hours=12, offset_half_hour=0))
    yield case(3, raw_frame(minus=0, offset_hours=12, offset_half_hour=1))
    for clock in ((0, 0, 0), (0, 0, 59), (1, 0, 0), (23, 59, 59), (0, 59, 60), (23, 59, 60)):
        yield case(3, raw_frame(PLAIN._replace(hour=clock[0], minute=clock[1], second=clock[2])))
        yield from both(Reading(2017, 1, 1, *clock, WINTER, False, False, False, 0))
        yield from both(Reading(2016, 12, 31, *clock, 0, False, False, False, 0))


def refused_frames() -> Iterator[bytes]:
    """Lengths, fixed pulses, digits over nine, parity, binary seconds, deletion; also together."""
    frame = raw_frame()
    for length in (0, 1, 60, 99, 101, 200):
        yield case(3, (frame * 2)[:length])
    for place in range(100):
        for byte in (0, 1, 2, 3, 48, 255):
            yield case(3, with_pulses(frame, (place,), byte))
    for place in ALWAYS_ZERO:
        yield case(3, mend_frame(with_pulses(frame, (place,), 1)))
    for start in BCD_DIGIT_STARTS:
        for digit in range(8, 16):
            pulses = bytearray(frame)
            put_field(pulses, [(start + bit, 1 << bit) for bit in range(4)], digit)
            yield case(3, pulses)
            yield case(3, mend_frame(bytearray(pulses)))
            yield case(3, with_pulses(pulses, (98,), 1))
    for name, _ in ieee1344.FIELDS["second of day"]:
        yield case(3, with_pulses(frame, (name,), 1 - frame[name]))
    for value in (0, 1, 86399, 86400, 86401, 131071):
        yield case(3, raw_frame(second_of_day=value))
        yield case(3, raw_frame(second_of_day=value, minus=1, offset_hours=0, second=60))
    for deletion in (0, 1):
        yield case(3, raw_frame(deletion=deletion))
        yield case(3, raw_frame(deletion=deletion, leap_pending=1))
        yield case(3, raw_frame(deletion=deletion, second=60))
        yield case(3, raw_frame(deletion=deletion, minus=1, offset_hours=0))
        yield case(3, raw_frame(deletion=deletion, hour=24))
        yield case(3, with_pulses(raw_frame(deletion=deletion), (75,), 1))
        yield case(3, with_pulses(raw_frame(deletion=deletion), (75,), 0))


def refused_readings() -> Iterator[bytes]:
    """Writer refusals in their order, at room 0, 99, 100, 101 and 255."""
    for changed in ({}, {"quality": 16}, {"quality": 255}, {"second": 60}, {"second": 61},
                    {"second": 255}, {"minute": 60}, {"hour": 24}, {"hour": 255}, {"day": 0},
                    {"day": 30}, {"day": 255}, {"month": 0}, {"month": 13}, {"month": 255},
                    {"year": 1999}, {"year": 2100}, {"year": 0}, {"year": 65535},
                    {"offset": 57}, {"offset": -49}, {"offset": -128}, {"offset": 127},
                    {"offset": 57, "second": 60}, {"offset": 57, "second": 61},
                    {"quality": 14}, {"year": 2023}, {"leap": True}, {"change": True}):
        for room in (0, 99, 100, 101, 255):
            yield write_case(7, PLAIN._replace(**changed), room, room)
    yield case(7, b"\x00" * 14)


def changes() -> Iterator[bytes]:
    """Every one-byte change of good frames, and of short ones."""
    leap = local(datetime(2016, 12, 31, 23, 59), WINTER, 60)
    for reading in (PLAIN, leap, PLAIN._replace(year=2000, month=1, day=1, offset=0, quality=15)):
        yield case(22, raw_frame(reading))
    yield case(22, raw_frame()[:4])
    yield case(22, b"")


def make() -> Iterator[bytes]:
    for part in (year_ends, every_day, offsets, times, refused_frames, refused_readings, changes):
        yield from part()
