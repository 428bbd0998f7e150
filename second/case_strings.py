"""Cases on the two strings, as one reader takes both: published layouts, real leap seconds, offsets,
what other decoders wrongly accept, every refusal of reader and writers, room and position part edges,
and (case_door.py) which of the two a string is."""

from datetime import datetime, timedelta
from typing import Iterator

import case_door
from case_parts import (MEINBERG_OFFSETS, PLAIN, POSITION, REAL_LEAP_DAYS, SUMMER, WINTER, case,
                        local, raw_erlangen, raw_meinberg, reading_bytes, write_case)

# +05:30 +05:45 -03:30 -12:00 +14:00 .. +13:45 -11:45
OTHER_OFFSETS = (22, 23, -14, -48, 56, 0, 1, -1, 2, WINTER, SUMMER, 55, -47)
PUBLISHED = (
    b"\x02D:dd.mm.yy;T:w;U:hh.mm.ss;uvxy\x03",  # 000, 003
    b"\x02D:tt.mm.jj;T:w;U:hh.mm.ss;uvxy\x03",  # 001, 002
    b"\x02tt.mm.jj; w; hh:mm:ss; voo:oo; acdfg i; bbb.bbbbn llll.lllle hhhhm\x03",  # 002
    b"\x02tt.mm.jj; w; hh:mm:ss; voo:oo; acdfg i; bbb.bbbbn lll.llll hhhhm\x03",  # 003
)
PUBLISHED_DATES = ((2008, 11, 17), (2009, 12, 1), (2096, 3, 31), (2096, 10, 27), (2096, 3, 25),
                   (2000, 1, 1), (2099, 12, 31), (2024, 2, 29), (2000, 2, 29))


def published() -> Iterator[bytes]:
    """The layouts as printed, and filled in with the documents' own dates."""
    for layout in PUBLISHED:
        yield case(1, layout)
    for year, month, day in PUBLISHED_DATES:
        for offset in MEINBERG_OFFSETS:
            reading = PLAIN._replace(year=year, month=month, day=day, offset=offset,
                                     summer=offset == SUMMER)
            for quality in (0, 15):
                for coasting in (False, True):
                    reading = reading._replace(quality=quality)
                    yield case(1, raw_meinberg(reading, coasting=coasting))
                    yield case(1, raw_erlangen(reading, coasting=coasting))
    yield case(1, b"\x02D:31.12.16;T:6;U:23.59.60;  UA\x03")  # case 2 of document 01
    yield case(1, b"\x02D:29.02.24;T:4;U:12.34.56;    \x03")
    yield case(1, b"\x02D:29.02.23;T:4;U:12.34.56;    \x03")
    yield case(1, raw_erlangen(position=b"bbb.bbbbn llll.lllle hhhhm"))
    yield case(1, raw_erlangen(position=b"bbb.bbbbn lll.llll hhhhm"))


def leap_seconds() -> Iterator[bytes]:
    """58, 59, 60 and the second after, at every real leap second, in all forms, read and written."""
    for year, month, day in REAL_LEAP_DAYS:
        minute = datetime(year, month, day, 23, 59)
        moments = [(minute, 0), (minute, 1), (minute, 58), (minute, 59), (minute, 60),
                   (minute + timedelta(minutes=1), 0)]
        for utc, second in moments:
            for offset in MEINBERG_OFFSETS + OTHER_OFFSETS:
                for leap in (True, False):
                    reading = local(utc, offset, second, summer=offset == SUMMER, leap=leap)
                    if offset in MEINBERG_OFFSETS:
                        yield case(1, raw_meinberg(reading))
                        yield write_case(5, reading, 0, 40)
                    yield case(1, raw_erlangen(reading))
                    yield write_case(6, reading, 1, 70, POSITION)
                    yield case(9, reading_bytes(reading))


def letters() -> Iterator[bytes]:
    """All letters of both strings, the second 60 with and without L, offsets written and read."""
    for u in "# ":
        for v in "* ":
            for x in "U S":
                for y in "!A ":
                    yield case(1, raw_meinberg(letters=u + v + x + y))
    for number in range(64):
        text = "".join(letter if number >> bit & 1 else " "
                       for bit, letter in enumerate("#*S!A"))
        for second, i in ((56, "L"), (56, " ")) if number < 32 else ((60, "L"), (60, " ")):
            utc = datetime(2016, 12, 31, 23, 59)
            yield case(1, raw_erlangen(local(utc, WINTER, second), letters=text[:5] + " " + i))
    for offset in range(-128, 128):
        yield write_case(6, PLAIN._replace(offset=offset), 0, 68, POSITION)
        yield write_case(5, PLAIN._replace(offset=offset, summer=offset == SUMMER), 0, 32)
    for sign in "+-":
        for hours in list(range(0, 20)) + [99]:
            for minutes in (0, 1, 15, 29, 30, 31, 45, 59, 60, 90, 99):
                yield case(1, raw_erlangen(offset="%s%02d:%02d" % (sign, hours, minutes)))


def wrongly_accepted() -> Iterator[bytes]:
    """What other decoders take: 1x digits, any weekday, second 60 at any time, strange offsets."""
    good, long_good = raw_meinberg(), raw_erlangen()
    for place in (3, 4, 6, 7, 9, 10, 14, 18, 19, 21, 22, 24, 25):
        for byte in b"x /:;-+A\x00\xb2":
            yield case(1, good[:place] + bytes((byte,)) + good[place + 1:])
    for place in (1, 2, 4, 5, 7, 8, 11, 14, 15, 17, 18, 20, 21, 25, 26, 28, 29):
        for byte in b"x /:;-+A\x00\xb2":
            yield case(1, long_good[:place] + bytes((byte,)) + long_good[place + 1:])
    for weekday in range(10):
        yield case(1, raw_meinberg(weekday=weekday))
        yield case(1, raw_erlangen(weekday=weekday))
    for day in range(1, 32):
        yield case(1, raw_meinberg(PLAIN._replace(month=6, day=day, hour=23, minute=59, second=60,
                                                  offset=0)))
        yield case(1, raw_erlangen(PLAIN._replace(month=12, day=day, hour=0, minute=59, second=60)))
    for minute in (0, 58, 59):
        for hour in range(24):
            for offset in MEINBERG_OFFSETS:
                reading = PLAIN._replace(month=12, day=31, hour=hour, minute=minute, second=60,
                                         offset=offset)
                yield case(1, raw_meinberg(reading))
                yield case(1, raw_erlangen(reading._replace(month=7, day=1)))
    for text in ("+99:99", "-00:00", "+00:00", "-00:30", "+0x:00", "+00:0x", " 01:00", "+01.00",
                 "+24:00", "-24:00", "+14:30", "-12:30", "+14:15", "-12:15", "+05:50", "+05:60",
                 "+1 :00", "\xb101:00"):
        yield case(1, raw_erlangen(offset=text))


def refused_strings() -> Iterator[bytes]:
    """Lengths, every field over its range, and several faults at once."""
    good, long_good = raw_meinberg(), raw_erlangen()
    for length in (0, 1, 31, 33, 60, 67, 68, 100):
        yield case(1, (good * 4)[:length])
    for length in (0, 1, 32, 66, 67, 69, 100, 136):
        yield case(1, (long_good * 2)[:length])
    for name, values in (("day", (0, 1, 30, 31, 32, 99)), ("month", (0, 1, 2, 12, 13, 99)),
                         ("hour", (0, 23, 24, 99)), ("minute", (0, 59, 60, 99)),
                         ("second", (0, 59, 60, 61, 99)), ("year", (2000, 2023, 2099))):
        for value in values:
            reading = PLAIN._replace(**{name: value})
            for weekday in (-1, 0, 3, 7, 8, 9):
                yield case(1, raw_meinberg(reading, weekday))
                yield case(1, raw_erlangen(reading, weekday))
                yield case(1, raw_erlangen(reading, weekday, "-00:00", "     " + " L"))
    for place in range(41, 67):
        for byte in (0, 3, 31, 32, 126, 127, 128, 255):
            yield case(1, long_good[:place] + bytes((byte,)) + long_good[place + 1:])
    for first in range(0, 32, 3):
        for second in range(first + 1, 32, 5):
            changed = bytearray(good)
            changed[first] = changed[second] = 0xFF
            yield case(1, changed)


def writers() -> Iterator[bytes]:
    """Every refusal of the two string writers, with room and position part edges."""
    faulty = [PLAIN, PLAIN._replace(quality=15, summer=True), PLAIN._replace(quality=7),
              PLAIN._replace(quality=16), PLAIN._replace(quality=255), PLAIN._replace(offset=57),
              PLAIN._replace(offset=-128), PLAIN._replace(second=60), PLAIN._replace(second=61),
              PLAIN._replace(month=0), PLAIN._replace(month=255, offset=-128),
              PLAIN._replace(day=0), PLAIN._replace(day=30), PLAIN._replace(year=1999),
              PLAIN._replace(year=2100), PLAIN._replace(year=0), PLAIN._replace(year=65535),
              PLAIN._replace(hour=24), PLAIN._replace(minute=60), PLAIN._replace(offset=10),
              PLAIN._replace(leap=True, change=True), PLAIN._replace(leap=True),
              PLAIN._replace(change=True), PLAIN._replace(offset=SUMMER), PLAIN._replace(offset=5),
              PLAIN._replace(offset=SUMMER, summer=True), PLAIN._replace(offset=0, summer=True),
              PLAIN._replace(offset=0), PLAIN._replace(second=60, quality=3),
              PLAIN._replace(offset=57, quality=3), PLAIN._replace(offset=57, second=60)]
    for reading in faulty:
        for room in (0, 31, 32, 33, 255):
            yield write_case(5, reading, 1, room)
        for room in (0, 67, 68, 69, 255):
            for position in (POSITION, POSITION[:25], POSITION + b" ", b"", b"\x1f" * 26,
                             POSITION[:25] + b"\x7f"):
                yield write_case(6, reading, room & 1, room, position)
    for place in (0, 1, 13, 25):
        for byte in (0, 31, 32, 126, 127, 128, 255):
            position = bytearray(POSITION)
            position[place] = byte
            yield write_case(6, PLAIN, 0, 68, bytes(position))
            position[25] = 200
            yield write_case(6, PLAIN._replace(month=13), 0, 68, bytes(position))
    yield write_case(6, PLAIN, 0, 68, b"\x00" * 27)
    yield case(5, b"\x00" * 14)
    yield case(6, b"\x00" * 14)
    yield case(6, b"\x00" * 15)


def changes() -> Iterator[bytes]:
    """Every one-byte change of good strings."""
    leap = local(datetime(2016, 12, 31, 23, 59), 0, 60, leap=True)
    for reading in (PLAIN, leap, leap._replace(second=59), local(datetime(2015, 6, 30, 23, 59),
                    SUMMER, 60, summer=True), PLAIN._replace(year=2000, quality=15)):
        yield case(20, raw_meinberg(reading))
    for reading in (leap, PLAIN._replace(offset=-13, change=True),
                    PLAIN._replace(offset=0, summer=True)):
        yield case(20, raw_erlangen(reading, coasting=True))
    yield case(20, raw_meinberg()[:3])
    yield case(20, b"")


def make() -> Iterator[bytes]:
    for part in (published, leap_seconds, letters, wrongly_accepted, refused_strings, writers,
                 changes, case_door.make):
        yield from part()
