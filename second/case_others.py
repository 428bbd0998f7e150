"""Cases on stamps, on the bridge and on books."""

import random
from datetime import datetime, timedelta
from typing import Iterator, List, Tuple

from case_parts import (LARGEST_PAYLOAD, MEINBERG_OFFSETS, PLAIN, POSITION, REAL_LEAP_DAYS, SUMMER,
                        WINTER, bridge_case, case, local, mend_frame, mend_minute, raw_erlangen,
                        raw_frame, raw_meinberg, raw_minute, reading_bytes, with_pulses)
from reading import Reading

EXTREMES = {"year": (0, 1, 1999, 2000, 2099, 2100, 9999, 10000, 32768, 65535),
            "month": (0, 1, 2, 12, 13, 127, 128, 255), "day": (0, 1, 28, 29, 30, 31, 32, 255),
            "hour": (0, 23, 24, 128, 255), "minute": (0, 14, 15, 29, 30, 59, 60, 255),
            "second": (0, 1, 59, 60, 61, 255),
            "offset": (-128, -49, -48, -47, -1, 0, 1, 55, 56, 57, 127),
            "summer": (0, 1), "leap": (0, 1), "change": (0, 1), "quality": (0, 1, 14, 15, 16, 255)}


def stamps() -> Iterator[bytes]:
    """Document 01's cases, both ends of the hundred years, leap seconds, extremes, random."""
    def at(reading: Reading) -> bytes:
        return case(9, reading_bytes(reading))

    for start in (datetime(2000, 1, 1), datetime(2099, 12, 31, 23, 59), datetime(2016, 12, 31, 23,
                  59), datetime(2017, 1, 1), datetime(2024, 2, 29), datetime(2050, 6, 30, 23, 59)):
        for offset in range(-50, 59):
            for shift in (-15, -1, 0, 1, 15):
                here = local(start + timedelta(minutes=shift), offset)
                for second in (0, 59, 60):
                    yield at(here._replace(second=second))
    for first in EXTREMES:
        for second in EXTREMES:
            for one in EXTREMES[first]:
                for two in EXTREMES[second]:
                    yield at(PLAIN._replace(**{first: one, second: two}))
    for field in ("month", "day", "hour", "minute", "second", "quality"):
        for value in range(256):
            yield at(PLAIN._replace(**{field: value}))
    for offset in range(-128, 128):
        yield at(PLAIN._replace(offset=offset))
    dice = random.Random(86401)
    for _ in range(3000):
        yield at(Reading(dice.randrange(1999, 2101), dice.randrange(1, 13), dice.randrange(1, 32),
                         dice.randrange(24), dice.randrange(60), dice.randrange(60),
                         dice.randrange(-48, 57), *(dice.random() < 0.5 for _ in range(3)),
                         dice.randrange(16)))
    for _ in range(1000):
        yield case(9, bytes(dice.randrange(256) for _ in range(12)))
    yield case(9, bytes(11))
    yield case(9, bytes(12))


def bridge_moments() -> List[Reading]:
    """Readings in and around the two windows, with every announcement."""
    moments = []
    for year, month, day in REAL_LEAP_DAYS[2:] + ((2023, 6, 29), (2023, 3, 31)):
        for minute in (57, 58, 59):
            for offset in (*MEINBERG_OFFSETS, 22, -14):
                utc = datetime(year, month, day, 23, minute)
                for second in (0, 1, 30, 59, 60):
                    moments.append(local(utc, offset, second, summer=offset == SUMMER))
                moments.append(local(utc + timedelta(minutes=3), offset, 0, summer=offset == SUMMER))
    return moments


def bridges() -> Iterator[bytes]:
    """Announcements in and out of their windows, refused strings, rooms 0, 99, 100, 101, 255."""
    for reading in bridge_moments():
        for leap, change in ((False, False), (True, False), (False, True), (True, True)):
            said = reading._replace(leap=leap, change=change)
            if not (leap and change) and said.offset in MEINBERG_OFFSETS:
                yield bridge_case(100, raw_meinberg(said))
            yield bridge_case(101, raw_erlangen(said, coasting=change))
    for offset in range(-50, 59):
        yield bridge_case(100, raw_erlangen(PLAIN._replace(offset=offset, summer=offset > 18)))
    strings = [raw_meinberg(PLAIN._replace(quality=15), coasting=True), raw_meinberg(),
               raw_erlangen(), b""]
    strings += [raw_meinberg(weekday=weekday) for weekday in (0, 3, 4, 9)]
    strings += [raw_erlangen(weekday=weekday) for weekday in (0, 3, 4, 9)]
    strings += [raw_erlangen(offset=text) for text in ("-00:00", "+99:99", "+0x:00")]
    strings += [raw_meinberg(PLAIN._replace(second=second)) for second in (60, 61)]
    strings += [raw_erlangen(PLAIN._replace(second=second)) for second in (60, 61)]
    strings += [raw_erlangen(letters="      L"), raw_erlangen(position=b"\x7f" * 26),
                raw_erlangen(PLAIN._replace(quality=15, change=True), position=POSITION)]
    for string in strings:
        for room in (0, 99, 100, 101, 255):
            yield bridge_case(room, string)
    for place in range(32):
        yield bridge_case(100, raw_meinberg()[:place] + b"\xff" + raw_meinberg()[place + 1:])
    for place in range(68):
        yield bridge_case(100, raw_erlangen()[:place] + b"\x00" + raw_erlangen()[place + 1:])
    for room in (0, 1, 2, 3, 255):  # the byte after the room is the string's first
        yield bridge_case(room, b"\x64" + raw_meinberg())
    yield case(10, b"")
    for payload in (b"\x01", b"\x64", b"\xff", b"\x01\x64", b"\x64\x02"):
        yield case(10, payload)


def two_faults() -> List[Tuple[int, bytes]]:
    """Bodies of every kind in which two fields are wrong, by one code or by two."""
    minute = raw_minute(PLAIN)
    return [(1, raw_meinberg(PLAIN._replace(hour=24, month=13))),
            (1, raw_meinberg(PLAIN._replace(day=31, month=13), weekday=0)),
            (2, raw_erlangen(PLAIN._replace(minute=60, second=61))),
            (2, raw_erlangen(PLAIN._replace(day=0, month=13))),
            (3, raw_frame(second=61, hour=25)), (3, raw_frame(day_of_year=0, second_of_day=1)),
            (3, mend_frame(with_pulses(raw_frame(), (56, 58, 36, 38), 1))),
            (4, raw_minute(PLAIN, hour=24, month=13)), (4, raw_minute(PLAIN, weekday=0, month=13)),
            (4, with_pulses(with_pulses(minute, (35,), 1 - minute[35]), (58,), 1 - minute[58])),
            (5, raw_minute(PLAIN, length=61, day=31, month=13))]


def book_records() -> List[bytes]:
    """Whole records of every kind: accepted, refused by every code, with a refused stamp, and with
    two faults."""
    long = local(datetime(2017, 1, 1), WINTER, leap=True)
    early = Reading(2000, 1, 1, 0, 30, 0, WINTER, False, False, False, 0)  # case 9
    late = Reading(2099, 12, 31, 23, 0, 0, -48, False, False, False, 0)
    first_leap = Reading(2000, 1, 1, 0, 59, 60, WINTER, False, False, False, 0)
    frame, minute = raw_frame(), raw_minute(PLAIN)
    bodies = [(1, raw_meinberg(reading)) for reading in (
        PLAIN, early, first_leap, PLAIN._replace(month=13), PLAIN._replace(second=60))]
    bodies += [(1, raw_meinberg(weekday=1)), (1, b"\x00" * 32),
               (1, b"\x02D:31.12.16;T:6;U:23.59.60;  UA\x03")]
    bodies += [(2, raw_erlangen(reading)) for reading in (
        PLAIN, early, late, first_leap, PLAIN._replace(day=0), PLAIN._replace(second=60))]
    bodies += [(2, raw_erlangen(offset="-00:00")), (2, raw_erlangen(weekday=2)),
               (2, raw_erlangen(position=b"\x01" * 26))]
    bodies += [(3, raw_frame(reading)) for reading in (
        PLAIN, early, late, first_leap, PLAIN._replace(second=60), PLAIN._replace(hour=24))]
    bodies += [(3, raw_frame(deletion=1)), (3, raw_frame(second_of_day=1)),
               (3, raw_frame(minus=1, offset_hours=0)), (3, with_pulses(frame, (75,), 0)),
               (3, with_pulses(frame, (98,), 1)),
               (3, mend_frame(with_pulses(frame, (50, 53), 1)))]
    bodies += [(4, raw_minute(reading, 7, 60)) for reading in (
        PLAIN, early, long, PLAIN._replace(minute=60))]
    bodies += [(4, raw_minute(PLAIN, summer_zone=1)), (4, raw_minute(PLAIN, weekday=1)),
               (4, with_pulses(minute, (28,), 0)), (4, with_pulses(minute, (59,), 0)),
               (4, mend_minute(with_pulses(minute, (45, 46, 48), 1)))]
    bodies += [(5, raw_minute(reading, 7, 61)) for reading in (PLAIN, long, early)]
    bodies += [(5, with_pulses(raw_minute(long), (59,), 1))]
    bodies += two_faults()
    return [bytes((kind,)) + bytes(body) for kind, body in bodies]


def books() -> Iterator[bytes]:
    """Each record alone, cut, before unknown kinds, in pairs and in long random books."""
    every = book_records()
    good = every[0]
    yield case(13)
    yield case(13, every[7] + b"\x09")  # the case of document 01
    for kind in range(256):
        yield case(13, bytes((kind,)))
        yield case(13, good + bytes((kind,)) + good)
    for record in every:
        yield case(13, record)
        yield case(13, record + good)
        for cut in (1, 2, len(record) - 1):
            yield case(13, record[:cut])
            yield case(13, good + record[:cut])
    dice = random.Random(13)
    for _ in range(300):
        book = b""
        while len(book) < 3600 and dice.random() < 0.96:
            book += dice.choice(every)
        tail = dice.choice((b"", b"\x00", b"\x06", b"\xff", good[:dice.randrange(33)], every[-1]))
        yield case(13, (book + tail)[:LARGEST_PAYLOAD - 1])
    for _ in range(100):
        yield case(13, bytes(dice.randrange(7) for _ in range(dice.randrange(400))))
