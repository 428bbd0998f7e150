"""Parts the case makers share: packing a case, packing a reading or what a telegram is asked with,
and raw strings, frames and minutes that are built from any field values without asking whether they
are good."""

import struct
from datetime import date, datetime
from typing import Iterable, Iterator, NamedTuple

import answers
import dcf77
import ieee1344
from layout import ones_are_odd
from reading import ONE_MINUTE, QUARTER_HOUR, Reading

POSITION = b" 51.9826N    9.2258E  176m"
WINTER, SUMMER = 4, 8  # Central Europe's offsets, in quarter hours
MEINBERG_OFFSETS = (0, WINTER, SUMMER)
PLAIN = Reading(2024, 2, 29, 12, 34, 56, WINTER, False, False, False, 0)  # case 6 of document 01
LARGEST_PAYLOAD = 4000
# What is no base: near the two, parts of them, their bytes swapped, and the ends of the numbers.
NO_BASES = (0, 1, 19, 90, 100, 1900, 1989, 1991, 1999, 2001, 2010, 2090, 2099, 2100, 50695, 51719,
            53255, 65535)
WORSE, DROPPED = 1, 2  # the ways of op 16
REAL_LEAP_DAYS = ((2005, 12, 31), (2008, 12, 31), (2016, 12, 31), (2012, 6, 30), (2015, 6, 30))


class Asked(NamedTuple):
    """What a telegram is asked with, in the order of the payload."""

    begin_month: int
    begin_day: int
    begin_weekday: int
    end_month: int
    end_day: int
    end_weekday: int
    year: int
    month: int
    day: int
    hour: int
    minute: int
    leap_set: int
    leap_year: int
    leap_month: int
    leap_day: int
    head: int
    room: int


# A noon in summer by Europe's rule, no leap second configured.
ASKED = Asked(3, 25, 7, 10, 25, 7, 2024, 6, 15, 12, 0, 0, 0, 0, 0, 0, 61)


def case(op: int, payload: bytes = b"", base: int = 2000) -> bytes:
    assert len(payload) < LARGEST_PAYLOAD
    return answers.HEADER.pack(op, base, len(payload)) + bytes(payload)


def at_base(base: int, made: Iterable[bytes]) -> Iterator[bytes]:
    """The same cases, asked at a base."""
    for one in made:
        op, _, length = answers.HEADER.unpack_from(one)
        yield answers.HEADER.pack(op, base, length) + one[answers.HEADER.size:]


def reading_bytes(reading: Reading) -> bytes:
    return struct.pack("<HBBBBBbBBBB", *(int(value) for value in reading))


def write_case(op: int, reading: Reading, beside: int = 0, room: int = 255,
               position: bytes = b"", base: int = 2000) -> bytes:
    return case(op, reading_bytes(reading) + struct.pack("<HB", beside, room) + position, base)


def asked_bytes(asked: Asked) -> bytes:
    return struct.pack("<6BH4BBH2BHB", *asked)


def sent_at(utc: datetime, asked: Asked = ASKED, **changed: int) -> Asked:
    """The same asked in another UTC minute, with other values changed too."""
    return asked._replace(year=utc.year, month=utc.month, day=utc.day, hour=utc.hour,
                          minute=utc.minute, **changed)


def with_leap(day: date, asked: Asked) -> Asked:
    """The same with a leap second configured at the end of a day."""
    return asked._replace(leap_set=1, leap_year=day.year, leap_month=day.month, leap_day=day.day)


def bridge_case(room: int, string: bytes, base: int = 2000) -> bytes:
    return case(10, bytes((room,)) + string, base)


def bridge_with_case(room: int, way: int, string: bytes, base: int = 2000) -> bytes:
    return case(16, bytes((room, way)) + string, base)


def local(utc: datetime, offset: int, second: int = 0, **flags) -> Reading:
    """The reading of a UTC minute at an offset; flags and quality as given, else none."""
    at = utc + offset * QUARTER_HOUR
    return Reading(at.year, at.month, at.day, at.hour, at.minute, second, offset,
                   flags.get("summer", False), flags.get("leap", False),
                   flags.get("change", False), flags.get("quality", 0))


def weekday_digit(year: int, month: int, day: int) -> int:
    """The weekday of a date, 1 where there is no such date."""
    try:
        return datetime(year, month, day).isoweekday()
    except ValueError:
        return 1


def raw_meinberg(reading: Reading = PLAIN, weekday: int = -1, letters: str = "",
                 coasting: bool = False) -> bytes:
    """A Meinberg string of any two-digit values; letters replace uvxy."""
    if weekday < 0:
        weekday = weekday_digit(*reading[:3])
    zone = {0: "U", SUMMER: "S"}.get(reading.offset, " ")
    announced = "A" if reading.leap else "!" if reading.change else " "
    letters = letters or ("#" if reading.quality else " ") + (
        "*" if coasting else " ") + zone + announced
    return ("\x02D:%02d.%02d.%02d;T:%d;U:%02d.%02d.%02d;%s\x03" % (
        reading.day, reading.month, reading.year % 100, weekday, reading.hour, reading.minute,
        reading.second, letters)).encode("latin-1")


def raw_erlangen(reading: Reading = PLAIN, weekday: int = -1, offset: str = "",
                 letters: str = "", position: bytes = POSITION, coasting: bool = False) -> bytes:
    """A Uni Erlangen string of any two-digit values; offset and letters replace voo:oo, acdfg i."""
    if weekday < 0:
        weekday = weekday_digit(*reading[:3])
    size = divmod(abs(reading.offset) * QUARTER_HOUR // ONE_MINUTE, 60)
    offset = offset or "%s%02d:%02d" % ("-" if reading.offset < 0 else "+", *size)
    letters = letters or "".join(letter if wanted else " " for letter, wanted in (
        ("#", reading.quality), ("*", coasting), ("S", reading.summer), ("!", reading.change),
        ("A", reading.leap), (" ", True), ("L", reading.second == 60)))
    return ("\x02%02d.%02d.%02d; %d; %02d:%02d:%02d; %s; %s; " % (
        reading.day, reading.month, reading.year % 100, weekday, reading.hour, reading.minute,
        reading.second, offset, letters)).encode("latin-1") + position + b"\x03"


def said_in_frame(reading: Reading = PLAIN) -> dict:
    """Field values of a frame; an impossible date is taken as day 0 of the year, and of an odd number
    of quarter hours the last is left out."""
    try:
        return ieee1344.said_of(reading)
    except ValueError:
        return dict(ieee1344.said_of(reading._replace(month=1, day=1)), **{"day of year": 0})


def raw_frame(reading: Reading = PLAIN, **changed: int) -> bytearray:
    """A frame of any field values, parity mended; names use _ for spaces."""
    said = said_in_frame(reading)
    said.update({name.replace("_", " "): value for name, value in changed.items()})
    if not any(name in changed for name in ("second_of_day", "keep_binary")):
        said["second of day"] = said["hour"] * 3600 + said["minute"] * 60 + said["second"]
    said.pop("keep binary", None)
    return ieee1344.frame_of(said)


def mend_frame(pulses: bytearray) -> bytearray:
    """Makes the parity even again after pulses were set by hand."""
    if len(pulses) == 100 and ones_are_odd(pulses, ieee1344.PARITY_PLACES):
        pulses[75] ^= 1
    return pulses


def mend_minute(marks: bytearray) -> bytearray:
    """Makes the three parities even again after marks were set by hand."""
    for parity, group in dcf77.PARITY_GROUPS.items():
        if len(marks) > 58 and ones_are_odd(marks, group):
            marks[parity] ^= 1
    return marks


def with_pulses(pulses: bytes, places: Iterable[int], value: int) -> bytearray:
    changed = bytearray(pulses)
    for place in places:
        changed[place] = value
    return changed


def raw_minute(reading: Reading = PLAIN, head: int = 0, length: int = 0,
               **changed: int) -> bytearray:
    """A minute of any field values, parities mended; the right length unless one is given."""
    said = {"head": head, "change": int(reading.change), "leap": int(reading.leap), "start": 1,
            "summer zone": int(reading.summer), "winter zone": int(not reading.summer),
            "minute": reading.minute, "hour": reading.hour, "day": reading.day,
            "weekday": weekday_digit(*reading[:3]), "month": reading.month,
            "year": reading.year % 100}
    said.update({name.replace("_", " "): value for name, value in changed.items()})
    if not length:
        length = dcf77.LONG_LENGTH if dcf77.is_long(reading) else dcf77.LENGTH
    return dcf77.minute_of(said, length)


def german_minute(utc: datetime, summer: bool, **flags) -> Reading:
    """The reading a DCF77 minute names, in Central European time."""
    return local(utc, SUMMER if summer else WINTER, summer=summer, **flags)
