"""Cases on telegrams under both bases: the minutes around the ends of the hundreds, the changes and the
month ends of the nineties, leap seconds configured in and out of a hundred, what a base goes before and
after; and runs of telegrams, as the DCF77 pulse reader takes them."""

from datetime import date, datetime, timedelta
from typing import Iterator

from case_parts import ASKED, at_base, case, sent_at, with_leap
from case_telegram_faults import BASES as SOME_ASKED
from case_telegram_faults import FAULTS, LONG, asked_case
from case_telegrams import AROUND_CHANGE, by_rule, found_days, last_of_month, midnight, telegrams_from

BOTH = (1990, 2000)
ONE_MORE = (*BOTH, 1999)  # which is none
MINUTE = timedelta(minutes=1)
DAY = timedelta(days=1)
# 00:00 UTC at the ends of the hundreds, and minutes from there.
ENDS = (datetime(1990, 1, 1), datetime(2000, 1, 1), datetime(2090, 1, 1), datetime(2100, 1, 1))
AROUND_END = (-63, -62, -61, -60, -59, -2, -1, 0, 1)
SUMMER_TO_DECEMBER = (3, 25, 7, 12, 25, 4)
LEAP_YEARS = (1988, 1989, 1990, 1992, 1994, 1999, 2000, 2089, 2090, 2099, 2100)
LEAP_DATES = ((1, 31), (2, 28), (2, 29), (6, 30), (6, 31), (12, 30), (12, 31), (13, 31), (0, 0))
# The first minute sent, how many, the date of a leap second; all in the hundred of 1990.
RUNS = (
    (datetime(1990, 12, 31, 23, 55), 8, date(1990, 12, 31)),
    (datetime(1992, 6, 30, 23, 55), 8, date(1992, 6, 30)),
    (datetime(1993, 6, 30, 23, 55), 8, date(1993, 6, 30)),
    (datetime(1994, 6, 30, 23, 50), 14, date(1994, 6, 30)),
    (datetime(1995, 12, 31, 23, 55), 8, date(1995, 12, 31)),
    (datetime(1997, 6, 30, 23, 55), 8, date(1997, 6, 30)),
    (datetime(1998, 12, 31, 22, 55), 8, date(1998, 12, 31)),
    (datetime(1998, 12, 31, 23, 50), 14, date(1998, 12, 31)),
    (datetime(1999, 12, 31, 22, 55), 8, None), (datetime(1999, 12, 31, 23, 55), 8, None),
    (datetime(1994, 3, 27, 0, 55), 8, None), (datetime(1994, 9, 25, 0, 55), 8, None),
    (datetime(1990, 1, 1), 8, date(1990, 1, 31)), (datetime(2089, 12, 31, 22, 51), 8, None),
    (datetime(2016, 12, 31, 23, 55), 8, date(2016, 12, 31)), (datetime(2024, 3, 31, 0, 55), 8, None))


def hundreds_ends() -> Iterator[bytes]:
    """Around the ends of the hundreds, in winter and where a summer lasts to December, with the last day
    as a leap second's and without."""
    for first in ENDS:
        for minutes in AROUND_END:
            for rule in ((), SUMMER_TO_DECEMBER):
                for room in (60, 61):
                    sent = sent_at(first + minutes * MINUTE, by_rule(rule), room=room)
                    yield asked_case(sent)
                    yield asked_case(with_leap((first - DAY).date(), sent))


def changes() -> Iterator[bytes]:
    """Where announcement and zone begin and end, in the years around the nineties and in some others."""
    for year in (*range(1989, 2001), 2024, 2089, 2090):
        for day in found_days(ASKED, year):
            for minutes in AROUND_CHANGE[2:10]:
                yield asked_case(sent_at(midnight(day) + minutes * MINUTE, head=year, room=60))


def month_ends() -> Iterator[bytes]:
    """Every month end of the nineties with a leap second."""
    for year in range(1990, 2000):
        for month in range(1, 13):
            last = last_of_month(year, month)
            for minutes in (-61, -60, -1, 0):
                sent = sent_at(midnight(last) + DAY + minutes * MINUTE, head=month)
                yield asked_case(with_leap(last, sent))


def leap_dates() -> Iterator[bytes]:
    """Dates of a leap second, in the hundreds and around them, by a minute that both have."""
    for year in LEAP_YEARS:
        for month, day in LEAP_DATES:
            yield asked_case(ASKED, leap_set=1, leap_year=year, leap_month=month, leap_day=day)


def in_their_places() -> Iterator[bytes]:
    """Each fault alone, in a telegram that is good and in one that is long, with room and without."""
    for asked in (ASKED, LONG, LONG._replace(room=60)):
        yield asked_case(asked)
    for fault in FAULTS:
        yield asked_case(ASKED, **fault)


def faults() -> Iterator[bytes]:
    """The same in telegrams of every kind."""
    for asked in SOME_ASKED:
        for fault in FAULTS:
            yield asked_case(asked, **fault)


def runs() -> Iterator[bytes]:
    """Written by the base 1990; taken by a pulse reader of that base, of the other and of none."""
    for first, count, leap in RUNS:
        marks = telegrams_from(first, count, with_leap(leap, ASKED) if leap else ASKED, 1990)
        for base in ONE_MORE:
            yield case(12, marks, base)


def make() -> Iterator[bytes]:
    yield from runs()
    for base in ONE_MORE:
        for part in (hundreds_ends, leap_dates, changes):
            yield from at_base(base, part())
    for base in BOTH:
        yield from at_base(base, month_ends())
    yield from at_base(1990, faults())
