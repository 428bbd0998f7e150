"""Self tests of bases: what the request says in its own numbers; the leap seconds of the nineties and
those since; that stamps are in the order of UTC whichever base each was read with; the rule that gives a
year; every year of both hundreds written and read back; and code 19 in its place at every door.
`check_base_runs.py` has the rest."""

import random
from datetime import date, datetime, timedelta
from itertools import product
from typing import Callable, Dict, Iterator, Tuple, Union

import case_random
import clock_string
import dcf77
import erlangen
import ieee1344
import meinberg
from bridge import Coasting, bridge, bridge_with
from case_parts import (ASKED, NO_BASES, PLAIN, POSITION, local, raw_erlangen, raw_frame, raw_meinberg,
                        raw_minute, sent_at, with_leap)
from case_telegrams import by_rule
from check_door import FILLED
from check_telegrams import made
from checks import Checks
from clock_string import ToldString
from reading import Reading, Refusal, Told, base_refusal, stamp, utc_minute, year_of

BASES = (1990, 2000)
MINUTE = timedelta(minutes=1)
# Base, local time and offset; the stamp, or the code that refuses it.
STAMPS = (
    (1990, (1990, 1, 1, 0, 0, 0, 0), -315536452), (1990, (1990, 1, 1, 1, 0, 0, 4), -315536452),
    (1990, (1990, 1, 1, 0, 59, 60, 4), Refusal(12)), (1990, (1990, 1, 1, 0, 0, 1, 0), -315536451),
    (2000, (2000, 1, 1, 0, 30, 0, 4), -1801), (1990, (2000, 1, 1, 0, 30, 0, 4), -1801),
    (2000, (2000, 1, 1, 0, 59, 60, 4), -1), (1990, (1999, 12, 31, 23, 59, 60, 0), -1),
    (1990, (2000, 1, 1, 0, 0, 0, 0), 0), (2000, (2000, 1, 1, 0, 0, 0, 0), 0),
    (2000, (2099, 12, 31, 23, 59, 60, 0), 3155796524),
    (2000, (2099, 12, 31, 12, 0, 0, -48), Refusal(12)),
    (1990, (2089, 12, 31, 23, 0, 0, -48), 2840299673), (1990, (1990, 1, 1, 13, 0, 0, 56), Refusal(12)),
    (1990, (1989, 12, 31, 23, 0, 0, 0), Refusal(16)), (1990, (2090, 1, 1, 0, 0, 0, 0), Refusal(16)),
    (2000, (1999, 12, 31, 23, 59, 60, 0), Refusal(16)), (2000, (2100, 1, 1, 0, 0, 0, 0), Refusal(16)))
# UTC day, its weekday, and the stamp of its leap second.
LEAP_SECONDS = (
    ((1990, 12, 31), 1, -284000088), ((1992, 6, 30), 2, -236738741), ((1993, 6, 30), 3, -205202376),
    ((1994, 6, 30), 4, -173666011), ((1995, 12, 31), 7, -126231862), ((1997, 6, 30), 1, -78970515),
    ((1998, 12, 31), 4, -31536366), ((2005, 12, 31), 6, 189390991), ((2008, 12, 31), 3, 284086487),
    ((2012, 6, 30), 6, 394420564), ((2015, 6, 30), 2, 489029659), ((2016, 12, 31), 6, 536550209))
# A string's date, weekday; what it is by the base 1990 and by 2000: a year, or code and place.
DATES: Tuple[Tuple[str, int, Union[int, Refusal], Union[int, Refusal]], ...] = (
    ("29.02.96", 4, 1996, Refusal(6, 14)), ("29.02.96", 3, Refusal(6, 14), 2096),
    ("29.02.92", 6, 1992, Refusal(6, 14)), ("29.02.92", 5, Refusal(6, 14), 2092),
    ("29.02.94", 2, Refusal(16, 3), Refusal(16, 3)), ("01.01.90", 1, 1990, Refusal(6, 14)),
    ("31.12.99", 5, 1999, Refusal(6, 14)), ("31.12.99", 4, Refusal(6, 14), 2099),
    ("01.01.00", 6, 2000, 2000), ("29.02.24", 4, 2024, 2024), ("31.12.89", 6, 2089, 2089))
NINETIES = Reading(1996, 2, 29, 12, 34, 56, 4, False, False, False, 0)



def moment(*at: int) -> Reading:
    """Local time and offset."""
    return Reading(*at, False, False, False, 0)


def check_stamps(check: Checks) -> None:
    """Literal ones; and a leap second's is the one between its neighbours', in every zone."""
    for base, at, due in STAMPS:
        check.that(stamp(base, moment(*at)) == due, "stamp of %s by %d" % (at, base))
    for day, _, due in LEAP_SECONDS:
        base = 1990 if day[0] < 2000 else 2000
        last = datetime(*day, 23, 59)
        for offset in (0, 4, 8, 23, -48, 56):
            found = [stamp(base, local(utc, offset, second))
                     for utc, second in ((last, 59), (last, 60), (last + MINUTE, 0))]
            check.that(found == [due - 1, due, due + 1], "leap second of %s at %d" % (day, offset))


def check_strings(check: Checks) -> None:
    """The leap seconds as strings; by the other base those of the nineties have the wrong weekday, and
    those since are the same. And dates by both bases."""
    for day, weekday, due in LEAP_SECONDS:
        text = "\x02D:%02d.%02d.%02d;T:%d;U:23.59.60;  UA\x03" % (*day[::-1][:2], day[0] % 100, weekday)
        for base in BASES:
            told = clock_string.read(base, text.encode())
            if day[0] < base:
                check.that(told == Refusal(6, 14), "%r by %d" % (text, base))
            else:
                check.that(isinstance(told, ToldString) and stamp(base, told.reading) == due,
                           "%r by %d" % (text, base))
    for text, weekday, *dues in DATES:
        string = ("\x02D:%s;T:%d;U:12.34.56;    \x03" % (text, weekday)).encode()
        for base, due in zip(BASES, dues):
            told = clock_string.read(base, string)
            found = told if isinstance(told, Refusal) else told.reading.year
            check.that(found == due, "%s, weekday %d by %d" % (text, weekday, base))


def check_order(check: Checks) -> None:
    """A later UTC second has the larger stamp whichever base each was stamped with, equal ones have the
    same, and a reading that both hundreds have is stamped alike."""
    dice = random.Random(1990)
    stamped = []
    for number in range(4000):
        reading = case_random.good_reading(dice)
        if number % 3 == 0:
            reading = reading._replace(year=dice.randrange(1990, 2001), day=min(reading.day, 28))
        found = [stamp(base, reading) for base in BASES]
        values = [value for value in found if isinstance(value, int)]
        check.that(len(set(values)) <= 1, "two stamps of %s" % (reading,))
        if values:
            stamped.append(((utc_minute(reading), reading.second), values[0]))
    stamped.sort()
    check.that(sum(value < 0 for _, value in stamped) > 500, "stamps before 2000")
    for (first, one), (second, two) in zip(stamped, stamped[1:]):
        check.that((one < two) == (first < second), "stamp order at %s" % (second,))


def check_year_rule(check: Checks) -> None:
    """The one year of the hundred, and each of the hundred is found by its digits; any other number is
    no base."""
    for base in BASES:
        hundred = range(base, base + 100)
        for digits in range(100):
            matching = [year for year in hundred if year % 100 == digits]
            check.that(matching == [year_of(base, digits)], "%02d by %d" % (digits, base))
    bases = [number for number in range(65536) if base_refusal(number) is None]
    check.that(bases == [1990, 2000], "bases")
    check.that(base_refusal(0) == base_refusal(1991) == (19, 0), "no base")


def written(base: int, reading: Reading) -> Iterator[Tuple[Callable, bytes, object]]:
    """What each writer makes of a reading, with its reader and what that has to say."""
    string, long_string, frame, minute = (bytearray(length) for length in (32, 68, 100, 60))
    named = reading._replace(second=0)
    answer = [meinberg.write(base, reading, True, string),
              erlangen.write(base, reading, True, POSITION, long_string),
              ieee1344.write(base, reading, frame), dcf77.write(base, named, 77, minute)]
    if answer == [32, 68, 100, 60]:
        yield clock_string.read, bytes(string), ToldString("meinberg", reading, True)
        yield clock_string.read, bytes(long_string), ToldString("erlangen", reading, True)
        yield ieee1344.read, bytes(frame), Told(reading)
        yield dcf77.read, bytes(minute), Told(named, 77)


def check_round_trips(check: Checks) -> None:
    """Every year of a hundred goes through each writer and its reader; what is read is written back; and
    a year that the other hundred lacks is there a weekday that is wrong, or a frame of another year."""
    for base, year in product(BASES, range(1985, 2105)):
        reading = NINETIES._replace(year=year, day=28)
        made_of = list(written(base, reading))
        in_hundred = base <= year < base + 100
        check.that(len(made_of) == (4 if in_hundred else 0), "year %d by %d" % (year, base))
        other = BASES[0] if base == BASES[1] else BASES[1]
        for read, given, due in made_of:
            check.that(read(base, given) == due, "read back %d by %d" % (year, base))
            elsewhere = read(other, given)
            if other <= year < other + 100:
                check.that(elsewhere == due, "%d by either base" % year)
            elif read is ieee1344.read:
                there = year + 100 if other > base else year - 100
                check.that(elsewhere == Told(reading._replace(year=there)),
                           "frame of %d by %d" % (year, other))
            else:
                check.that(elsewhere.code == 6, "weekday of %d by %d" % (year, other))


def doors(base: int, fault: bool) -> Dict[str, object]:
    """What each says at a base, of something good or, for the most part, of something with a fault that
    comes after the base."""
    reading = NINETIES._replace(hour=24) if fault else NINETIES
    named = reading._replace(second=0)
    end = b"\x00" if fault else None
    strings = [string[:-1] + (end or string[-1:]) for string in (raw_meinberg(reading),
                                                                 raw_erlangen(reading))]
    frame = bytes(raw_frame(reading)[:-1]) + (end or b"\x02")
    minute = bytes(raw_minute(named, 0, 60)[:-1]) + (end or b"\x02")
    position = b"\x7f" * 26 if fault else POSITION
    asked = by_rule((3, 25, 0, 10, 25, 7)) if fault else ASKED
    said = {"meinberg": clock_string.read(base, strings[0]),
            "erlangen": clock_string.read(base, strings[1]),
            "frame": ieee1344.read(base, frame), "minute": dcf77.read(base, minute),
            "write meinberg": meinberg.write(base, reading, False, bytearray(32)),
            "write erlangen": erlangen.write(base, reading, False, position, bytearray(68)),
            "write frame": ieee1344.write(base, reading, bytearray(100)),
            "write minute": dcf77.write(base, named, 65535 if fault else 0, bytearray(60)),
            "stamp": stamp(base, reading), "telegram": made(asked, base)[0]}
    for string in strings:
        said["bridge %d" % len(string)] = bridge(base, string, bytearray(100))
        for way in Coasting:
            said["bridge %d, %s" % (len(string), way)] = bridge_with(base, string, way, bytearray(100))
    return said


def check_doors(check: Checks) -> None:
    """What is no base is 19 at 0 everywhere, whatever else is wrong; with a base nothing is 19."""
    for base, fault in product(NO_BASES, (False, True)):
        for name, answer in doors(base, fault).items():
            check.that(answer == Refusal(19, 0), "%s by %d is %s" % (name, base, answer))
        for string in (raw_erlangen(), raw_erlangen(NINETIES)):
            check.that(clock_string.position_part(base, string) == b"", "part by %d" % base)
    parts = [clock_string.position_part(base, raw_erlangen(reading))
             for base, reading in product(BASES, (NINETIES, NINETIES._replace(year=2096), PLAIN))]
    check.that(parts == [POSITION, b"", POSITION, b"", POSITION, POSITION], "parts by both bases")
    for name, answer in doors(1990, False).items():
        check.that(not isinstance(answer, Refusal), "%s by 1990 is %s" % (name, answer))
    for name, answer in doors(1990, True).items():
        check.that(isinstance(answer, Refusal) and answer.code in (2, 15, 18), "%s by 1990" % name)
    for base in NO_BASES + BASES:
        lengths = [clock_string.read(base, b""), clock_string.read(base, raw_meinberg()[:-1]),
                   ieee1344.read(base, bytes(99)), dcf77.read(base, bytes(62)),
                   meinberg.write(base, NINETIES, False, bytearray(31)),
                   erlangen.write(base, NINETIES, False, POSITION, bytearray(67)),
                   erlangen.write(base, NINETIES, False, POSITION[1:], bytearray(68)),
                   ieee1344.write(base, NINETIES, bytearray(99)),
                   dcf77.write(base, NINETIES, 0, bytearray(59)), made(ASKED._replace(room=59), base)[0],
                   bridge(base, raw_meinberg(NINETIES), bytearray(99)),
                   bridge(base, b"", bytearray(100))]
        check.that(lengths == [Refusal(1, 0)] * len(lengths), "1 before 19 by %d" % base)


def check_untouched(check: Checks) -> None:
    """No writer touches its buffer where the base is none, a long minute's of 60 bytes neither."""
    long = local(datetime(2017, 1, 1), 4, leap=True)
    for base in NO_BASES:
        output = bytearray(FILLED * 61)
        answer = [dcf77.write(base, long, 0, output), meinberg.write(base, long, False, output),
                  dcf77.write(base, long, 0, bytearray(60))]
        check.that(answer == [(19, 0)] * 3 and output == FILLED * 61, "untouched by %d" % base)
        frame = bytearray(FILLED * 100)
        bridge(base, raw_meinberg(NINETIES), frame)
        check.that(frame == FILLED * 100, "frame untouched by %d" % base)
        sent = with_leap(date(2016, 12, 31), sent_at(datetime(2016, 12, 31, 23, 59), room=60))
        check.that(made(sent, base) == ((19, 0), bytes(FILLED * 60)), "telegram untouched by %d" % base)


def check_bases(check: Checks) -> None:
    for part in (check_stamps, check_strings, check_order, check_year_rule, check_round_trips,
                 check_doors, check_untouched):
        part(check)
