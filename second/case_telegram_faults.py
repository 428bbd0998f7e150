"""Cases on which refusal a telegram gets: every edge of every refusal alone, every pair of refusals,
rooms, the last minutes of the hundred years, payloads too short and too long."""

import random
from datetime import date, datetime, timedelta
from itertools import combinations
from typing import Dict, Iterator

from case_parts import ASKED, asked_bytes, case, sent_at, with_leap

DAY = timedelta(days=1)
NEW_YEAR = date(2001, 1, 1)  # of a common year
LAST_SET_DATE = date(2001, 12, 25)
LONG = with_leap(date(2016, 12, 31), sent_at(datetime(2016, 12, 31, 23, 59), head=4660))
UTC_OUTSIDE = sent_at(datetime(2099, 12, 31, 23, 59))
LOCAL_OUTSIDE = sent_at(datetime(2099, 12, 31, 22, 59), room=60)
BASES = (ASKED, LONG, LONG._replace(room=60), UTC_OUTSIDE, LOCAL_OUTSIDE)
# Each what it changes; in the order of their codes: 1, 18, 15, 16, 17, 9.
FAULTS = [
    {"room": 0}, {"room": 59},
    {"begin_weekday": 0}, {"begin_weekday": 8}, {"end_weekday": 0}, {"end_weekday": 8},
    {"begin_month": 2, "begin_day": 29}, {"end_month": 11, "end_day": 31},
    {"end_month": 12, "end_day": 26}, {"begin_month": 10, "begin_day": 19},
    {"end_month": 3, "end_day": 24}, {"begin_day": 0}, {"end_month": 13},
    {"hour": 24}, {"minute": 60}, {"year": 1999}, {"year": 2100}, {"month": 0}, {"month": 13},
    {"day": 0}, {"day": 32}, {"head": 32768}, {"head": 65535},
    {"leap_set": 1, "leap_year": 2016, "leap_month": 12, "leap_day": 30},
    {"leap_set": 1, "leap_year": 2100, "leap_month": 12, "leap_day": 31},
    {"leap_set": 1, "leap_year": 2023, "leap_month": 2, "leap_day": 29},
    {"leap_set": 1, "leap_year": 2016, "leap_month": 13, "leap_day": 0}]
# A value alone, the others as in a good telegram.
EDGES = {
    "begin_weekday": (*range(10), 255), "end_weekday": (*range(10), 255),
    "hour": (*range(26), 255), "minute": (*range(62), 255),
    "year": (0, 1999, 2000, 2001, 2098, 2099, 2100, 2101, 9999, 10000, 65535),
    "head": (0, 65535, *(near for bit in range(16) for near in ((1 << bit) - 1, 1 << bit))),
    "room": (0, 1, 58, 59, 60, 61, 62, 127, 128, 255), "leap_set": (0, 1, 2, 128, 255)}
MONTHS = (*range(14), 255)
SET_DAYS = (*range(33), 255)


def asked_case(asked, **changed: int) -> bytes:
    return case(15, asked_bytes(asked._replace(**changed)))


def alone() -> Iterator[bytes]:
    """Every edge of every value, in a telegram that is good, long, or outside the years."""
    for base in BASES:
        for name, values in EDGES.items():
            for value in values:
                yield asked_case(base, **{name: value})


def pairs() -> Iterator[bytes]:
    """Each fault and each two of different values, in each of the bases."""
    for base in BASES:
        for fault in FAULTS:
            yield asked_case(base, **fault)
        for one, two in combinations(FAULTS, 2):
            if not set(one) & set(two):
                yield asked_case(base, **one, **two)


def set_dates() -> Iterator[bytes]:
    """Every date, and what is none, as the begin with the latest end and as the end with the
    earliest begin."""
    for month in MONTHS:
        for day in SET_DAYS:
            yield asked_case(ASKED, begin_month=month, begin_day=day, end_month=12, end_day=25)
            yield asked_case(ASKED, begin_month=1, begin_day=1, end_month=month, end_day=day)


def ends_of(begin: date, after: int) -> Dict[str, int]:
    """A rule that ends so many days after it begins, in common years."""
    end = begin + after * DAY
    return {"begin_month": begin.month, "begin_day": begin.day, "end_month": end.month,
            "end_day": end.day}


def too_close() -> Iterator[bytes]:
    """Every begin with an end six days later, which is refused, and with one seven days later,
    asked in the hour before the earliest end; around February also with those beside them."""
    begin = NEW_YEAR
    while begin + 7 * DAY <= LAST_SET_DATE:
        beside = begin.month in (2, 3)
        for after in (-1, 0, 5, 6, 7, 8) if beside else (6, 7):
            end = begin + after * DAY
            sent = sent_at(datetime(2000 + begin.day * 3, end.month, end.day, 0, 59))
            yield asked_case(sent, **ends_of(begin, after))
        begin += DAY


def dates() -> Iterator[bytes]:
    """The minute's date and the leap second's, those that exist and those that do not."""
    for year in (2000, 2023, 2024, 2099, 2100):
        for month in MONTHS:
            for day in (0, 1, 28, 29, 30, 31, 32, 255):
                yield asked_case(ASKED, year=year, month=month, day=day)
    for year in (0, 1999, 2000, 2023, 2024, 2099, 2100, 65535):
        for month in (0, 1, 2, 4, 12, 13, 255):
            for day in (0, 1, 27, 28, 29, 30, 31, 32):
                yield asked_case(ASKED, leap_set=1, leap_year=year, leap_month=month, leap_day=day)


def both_ends() -> Iterator[bytes]:
    """The first and the last minutes that can be named, by rules whose summer ends on 31 December
    2099 and on 25 October; a leap second configured then or not."""
    minutes = [datetime(2099, 12, 31, 0, 58), datetime(2099, 12, 31, 0, 59),
               datetime(2099, 12, 31, 1, 0), datetime(2099, 12, 31, 21, 59),
               *(datetime(2099, 12, 31, 22, minute) for minute in (57, 58, 59)),
               *(datetime(2099, 12, 31, 23, minute) for minute in (0, 58, 59)),
               datetime(1999, 12, 31, 23, 59), datetime(2000, 1, 1), datetime(2100, 1, 1)]
    for minute in minutes:
        for end in ({}, {"end_month": 12, "end_day": 25, "end_weekday": 4}):
            for room in (60, 61):
                sent = sent_at(minute, room=room, **end)
                yield asked_case(sent)
                yield asked_case(with_leap(date(2099, 12, 31), sent))


def payloads() -> Iterator[bytes]:
    """Too short, too long, and of any bytes."""
    for base in BASES:
        for length in (0, 1, 18, 19, 20, 21, 40):
            yield case(15, (asked_bytes(base) * 2)[:length])
    dice = random.Random(1918)
    for number in range(200):
        payload = bytearray(dice.randrange(256) for _ in range(20))
        if number % 2:
            payload[:6] = asked_bytes(ASKED)[:6]
        payload[19] |= 64
        yield case(15, payload)


def make() -> Iterator[bytes]:
    for part in (alone, pairs, set_dates, too_close, dates, both_ends, payloads):
        yield from part()
