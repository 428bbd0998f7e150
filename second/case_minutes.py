"""Cases on DCF77 minutes: the long minute of 2016-12-31 and its hour, the changes of 2024, both
lengths, heads, every refusal, rooms 59, 60 and 61, every one-byte change."""

from datetime import datetime, timedelta
from typing import Iterator

from case_parts import (PLAIN, REAL_LEAP_DAYS, SUMMER, WINTER, case, german_minute, local,
                        mend_minute, raw_minute, with_pulses, write_case)
from layout import put_field
from reading import Reading

BASE = PLAIN._replace(second=0)
BCD_DIGIT_STARTS = (21, 29, 36, 45, 50, 54)  # four marks each
MINUTE = timedelta(minutes=1)


def both(reading: Reading, head: int = 0, room: int = 61) -> Iterator[bytes]:
    """The minute written, and its raw marks read in both lengths."""
    yield write_case(8, reading, head, room)
    yield case(4, raw_minute(reading, head, 60))
    yield case(4, raw_minute(reading, head, 61))


def leap_hours() -> Iterator[bytes]:
    """The hour before every real leap second in winter and summer form, announced or not."""
    for year, month, day in REAL_LEAP_DAYS:
        end = datetime(year, month, day, 23, 59) + MINUTE
        step = 1 if year == 2016 else 7
        for before in list(range(0, 63, step)) + [-1, -2]:
            for leap in (True, False):
                for summer in (True, False):
                    reading = german_minute(end - before * MINUTE, summer, leap=leap)
                    yield from both(reading, before % 64)
    for month in range(1, 13):
        for day in (1, 2, 30):
            reading = local(datetime(2023, month, day if month != 2 else 27), WINTER, leap=True)
            yield from both(reading)
    for year in range(2000, 2100):
        yield from both(local(datetime(year, 1, 1), WINTER, leap=True), year)
        yield from both(local(datetime(year, 7, 1), SUMMER, leap=True, summer=True), 32767)


def changes_of_2024() -> Iterator[bytes]:
    """The hours around the summer changes of 2024, announced in the hour before."""
    for day, summer_before in ((datetime(2024, 3, 31), False), (datetime(2024, 10, 27), True)):
        change = day + timedelta(hours=1)
        for number in range(-120, 121):
            utc = change + number * MINUTE
            summer = summer_before if number < 0 else not summer_before
            announced = -60 < number <= 0
            reading = german_minute(utc, summer, change=announced)
            yield write_case(8, reading, 0, 60)
            yield case(4, raw_minute(reading))
            if number % 15 == 0:
                yield case(4, raw_minute(reading, length=61))


def every_day() -> Iterator[bytes]:
    for year in (2023, 2024):
        at = datetime(year, 1, 1, 0, 0)
        while at.year == year:
            reading = german_minute(at, at.month % 2 == 0)
            yield write_case(8, reading, at.month * 31 + at.day, 60)
            yield case(4, raw_minute(reading, at.day))
            at += timedelta(days=1, minutes=17)


def heads() -> Iterator[bytes]:
    for head in [0, 1, 2, 16384, 32766, 32767] + [1 << bit for bit in range(15)]:
        yield from both(BASE, head)
    for head in (32768, 32769, 40000, 65535):
        yield write_case(8, BASE, head, 61)
        yield write_case(8, BASE._replace(offset=0), head, 59)
        yield write_case(8, BASE._replace(offset=0), head, 60)


def values() -> Iterator[bytes]:
    """Every minute, hour, day, weekday, month and year the marks can say, and every zone."""
    for name, largest in (("minute", 79), ("hour", 39), ("day", 39), ("weekday", 7), ("month", 19),
                          ("year", 99)):
        for value in range(largest + 1):
            yield case(4, raw_minute(BASE, **{name: value}))
    for summer_zone in (0, 1):
        for winter_zone in (0, 1):
            for other in ({}, {"minute": 60}, {"weekday": 1}, {"month": 13}, {"weekday": 0}):
                zone = {"summer_zone": summer_zone, "winter_zone": winter_zone}
                yield case(4, raw_minute(BASE, **zone, **other))
                yield case(4, raw_minute(BASE, 5, 61, **zone, **other))


def refused_minutes() -> Iterator[bytes]:
    """Lengths, fixed marks, digits over nine, parities, alone and together, in both lengths."""
    short = raw_minute(BASE)
    long = raw_minute(local(datetime(2017, 1, 1), WINTER, leap=True), 77)
    for length in (0, 1, 58, 59, 62, 100, 120):
        yield case(4, (short * 2)[:length])
    for marks in (short, long):
        for place in range(len(marks)):
            for byte in (0, 1, 2, 3, 49, 255):
                yield case(4, with_pulses(marks, (place,), byte))
        for start in BCD_DIGIT_STARTS:
            for digit in range(8, 16):
                changed = bytearray(marks)
                put_field(changed, [(start + bit, 1 << bit) for bit in range(4)], digit)
                yield case(4, changed)
                yield case(4, mend_minute(bytearray(changed)))
                yield case(4, with_pulses(changed, (20,), 0))
        for parities in ((28,), (35,), (58,), (28, 35), (28, 58), (35, 58), (28, 35, 58)):
            changed = bytearray(marks)
            for place in parities:
                changed[place] ^= 1
            yield case(4, changed)
    for last in range(4):
        for before in range(4):
            yield case(4, bytes(long[:59]) + bytes((before, last)))
            yield case(4, bytes(short[:59]) + bytes((before, last)))
    yield case(4, bytes(short[:59]) + b"\x02\x02")
    yield case(4, bytes(long[:59]) + b"\x02")


def writers() -> Iterator[bytes]:
    """Every refusal of the writer at rooms 0, 59, 60, 61, 62 and 255, long minutes too."""
    long = local(datetime(2017, 1, 1), WINTER, leap=True)
    summer_long = local(datetime(2012, 7, 1), SUMMER, leap=True, summer=True)
    leap_second = local(datetime(2016, 12, 31, 23, 59), WINTER, 60, leap=True)
    faulty = [BASE, long, summer_long, leap_second, leap_second._replace(offset=0),
              long._replace(leap=False), long._replace(offset=0), long._replace(offset=SUMMER),
              long._replace(quality=1), long._replace(quality=16), long._replace(second=1),
              long._replace(second=60), long._replace(change=True), long._replace(offset=57),
              long._replace(month=13), summer_long._replace(summer=False), PLAIN,
              BASE._replace(quality=15), BASE._replace(quality=255), BASE._replace(second=60),
              BASE._replace(second=61), BASE._replace(offset=SUMMER), BASE._replace(summer=True),
              BASE._replace(offset=SUMMER, summer=True), BASE._replace(offset=0),
              BASE._replace(offset=-49), BASE._replace(offset=-128), BASE._replace(day=30),
              BASE._replace(month=0, offset=99), BASE._replace(year=1999),
              BASE._replace(year=2100), BASE._replace(hour=24), BASE._replace(minute=60)]
    for reading in faulty:
        for room in (0, 59, 60, 61, 62, 255):
            for head in (0, 4660, 32768):
                yield write_case(8, reading, head, room)
    yield case(8, b"\x00" * 14)


def changes() -> Iterator[bytes]:
    """Every one-byte change of good minutes of both lengths."""
    yield case(23, raw_minute(BASE))
    yield case(23, raw_minute(local(datetime(2017, 1, 1), WINTER, leap=True), 21845))
    yield case(23, raw_minute(local(datetime(2015, 7, 1), SUMMER, leap=True, summer=True)))
    yield case(23, raw_minute(local(datetime(2016, 12, 31, 23, 59), WINTER, leap=True)))
    yield case(23, raw_minute(local(datetime(2017, 1, 1), WINTER)))
    yield case(23, raw_minute(BASE)[:3])
    yield case(23, b"")


def make() -> Iterator[bytes]:
    yield case(4, raw_minute(BASE))  # case 8 of document 01
    for part in (leap_hours, changes_of_2024, every_day, heads, values, refused_minutes, writers,
                 changes):
        yield from part()
