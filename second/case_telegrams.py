"""Cases on telegrams made from a summer rule: both changes and every month end of the hundred years,
other rules, leap seconds there and elsewhere, random ones; and runs of telegrams, as the DCF77 pulse
reader takes them."""

import random
from datetime import date, datetime, time, timedelta
from typing import Dict, Iterator, Tuple

import answers
import case_telegram_faults
import telegram
from case_parts import ASKED, Asked, asked_bytes, case, sent_at, with_leap

YEARS = range(2000, 2100)
FEW_YEARS = (2000, 2016, 2023, 2024, 2099)
MINUTE = timedelta(minutes=1)
DAY = timedelta(days=1)
# Minutes from 00:00 of the day of a change, that day and the days beside it.
AROUND_CHANGE = (-1440, -1381, -1, 0, 1, 58, 59, 60, 61, 1439, 1440, 1499, 1500)
# Minutes from 00:00 after the last day of a month.
AROUND_MONTH_END = (-61, -60, -2, -1, 0)
RULE_FIELDS = Asked._fields[:6]
RULES = [(3, 25, weekday, 10, 25, 8 - weekday) for weekday in range(1, 8)] + [
    (1, 1, 1, 1, 8, 1), (1, 1, 7, 12, 25, 4), (12, 18, 2, 12, 25, 2), (1, 31, 4, 2, 7, 6),
    (2, 28, 7, 3, 7, 1), (2, 22, 5, 3, 1, 5), (2, 25, 1, 3, 4, 7), (3, 1, 6, 11, 1, 3),
    (4, 30, 3, 5, 7, 3), (2, 28, 2, 12, 25, 7), (9, 1, 7, 12, 1, 1)]
# The first minute sent, how many, the date of a leap second, the rule where it is not Europe's.
RUNS = (
    (datetime(2016, 12, 31, 23, 50), 14, date(2016, 12, 31), ()),
    (datetime(2016, 12, 31, 22, 55), 10, date(2016, 12, 31), ()),
    (datetime(2016, 12, 31, 23, 55), 10, None, ()),
    (datetime(2024, 3, 31, 0, 55), 10, None, ()),
    (datetime(2024, 3, 30, 23, 55), 10, None, ()),
    (datetime(2024, 10, 27, 0, 55), 10, None, ()),
    (datetime(2024, 10, 26, 23, 55), 10, None, ()),
    (datetime(2015, 6, 30, 23, 52), 12, date(2015, 6, 30), ()),
    (datetime(2024, 2, 29, 23, 55), 10, date(2024, 2, 29), ()),
    (datetime(2023, 2, 28, 23, 55), 10, date(2023, 2, 28), ()),
    (datetime(2024, 3, 31, 23, 55), 10, date(2024, 3, 31), ()),
    (datetime(2024, 11, 30, 23, 55), 10, date(2024, 11, 30), (3, 25, 7, 11, 24, 7)),
    (datetime(2023, 12, 31, 0, 54), 10, None, (1, 1, 7, 12, 25, 7)),
    (datetime(2000, 1, 1, 0, 0), 10, date(2000, 1, 31), ()),
    (datetime(2099, 12, 31, 22, 49), 10, date(2099, 12, 31), ()))
ODD_VALUES: Dict[str, Tuple[int, ...]] = {
    "begin_month": (0, 13, 12, 2), "begin_day": (0, 31, 32, 29), "begin_weekday": (0, 8, 255),
    "end_month": (0, 13, 1, 2, 12), "end_day": (0, 31, 32, 29, 26), "end_weekday": (0, 8, 255),
    "year": (1999, 2100, 2000, 2099, 0, 65535), "month": (0, 13, 12, 255), "day": (0, 29, 30, 31, 32),
    "hour": (24, 0, 23, 255), "minute": (60, 59, 0, 255), "leap_set": (1, 255, 0),
    "leap_year": (1999, 2100, 2023), "leap_month": (0, 13, 2), "leap_day": (0, 28, 29, 30, 31),
    "head": (32767, 32768, 65535), "room": (0, 59, 60, 61, 62, 255)}


def asked_case(asked: Asked) -> bytes:
    return case(15, asked_bytes(asked))


def by_rule(rule: Tuple[int, ...], asked: Asked = ASKED) -> Asked:
    """The same by another rule, where one is given."""
    return asked._replace(**dict(zip(RULE_FIELDS, rule)))


def found_days(asked: Asked, year: int) -> Tuple[date, date]:
    """The days of both changes."""
    rule = answers.telegram_parts(asked_bytes(asked))[0]
    return telegram.day_of_change(rule.begin, year), telegram.day_of_change(rule.end, year)


def midnight(day: date) -> datetime:
    return datetime.combine(day, time())


def last_of_month(year: int, month: int) -> date:
    return date(year + month // 12, month % 12 + 1, 1) - DAY


def european_changes() -> Iterator[bytes]:
    """Where announcement and zone begin and end, in every year; heads of every size."""
    for year in YEARS:
        for day in found_days(ASKED, year):
            for minutes in AROUND_CHANGE:
                at = midnight(day) + minutes * MINUTE
                yield asked_case(sent_at(at, head=(year * 331 + minutes) % 32768, room=60))


def month_ends() -> Iterator[bytes]:
    """Every month end with a leap second and without, in some years at each edge, with the room of
    60 and of 61."""
    for year in YEARS:
        for month in range(1, 13):
            last = last_of_month(year, month)
            for minutes in AROUND_MONTH_END:
                sent = sent_at(midnight(last) + DAY + minutes * MINUTE, head=year)
                if year in FEW_YEARS or minutes in (-60, -1, 0):
                    yield asked_case(with_leap(last, sent))
                if year in FEW_YEARS or minutes == -1:
                    yield asked_case(sent)
                if year in FEW_YEARS:
                    yield asked_case(with_leap(last, sent._replace(room=60)))


def leap_elsewhere() -> Iterator[bytes]:
    """The last hour of days that are and that are not configured."""
    days = [date(2016, 12, 31), date(2016, 12, 30), date(2017, 1, 1), date(2016, 6, 30),
            date(2024, 2, 28), date(2024, 2, 29), date(2023, 2, 28), date(2099, 12, 31),
            date(2000, 1, 31)]
    for day in days:
        for configured in days:
            for minutes in (-61, -60, -1):
                for room in (60, 61):
                    sent = sent_at(midnight(day) + DAY + minutes * MINUTE, room=room)
                    yield asked_case(with_leap(configured, sent))


def other_rules() -> Iterator[bytes]:
    """Every day from the one before each set date to the one after the latest day of the change."""
    for rule in RULES:
        asked = by_rule(rule)
        for year in (2000, 2023, 2024, 2099):
            for month, day in (rule[0:2], rule[3:5]):
                for after in range(-1, 8):
                    for minute in (59, 60):
                        at = datetime(year, month, day) + after * DAY + minute * MINUTE
                        yield asked_case(sent_at(at, asked))


def any_rule(dice: random.Random) -> Tuple[int, ...]:
    """A good rule: dates a week and more apart, up to 25 December."""
    begin = date(2001, 1, 1) + dice.randrange(352) * DAY
    end = begin + dice.choice((7, 8, dice.randrange(7, 360))) * DAY
    end = min(end, date(2001, 12, 25))
    return (begin.month, begin.day, dice.randrange(1, 8), end.month, end.day, dice.randrange(1, 8))


def moved(base: int, year: int) -> int:
    """A year drawn for base 2000. Under base 1990 a third of the years lie in the nineties and a third
    ten years earlier, so that the hundred's ends are its ends; the others stay, as all do under any
    other base."""
    if base != 1990:
        return year
    return {0: year, 1: 1990 + year % 10, 2: year - 10}[year % 3]


def any_minute(asked: Asked, dice: random.Random, base: int = 2000) -> datetime:
    """Half the time near a change by the asked rule or near a month end, else any."""
    year = moved(base, dice.randrange(2000, 2100))
    way = dice.randrange(4)
    if way == 0:
        near = midnight(dice.choice(found_days(asked, year)))
        return near + dice.choice(AROUND_CHANGE + (dice.randrange(60),)) * MINUTE
    if way == 1:
        near = midnight(last_of_month(year, dice.randrange(1, 13)) + DAY)
        return near + dice.choice(AROUND_MONTH_END + (-dice.randrange(1, 61),)) * MINUTE
    return datetime(year, 1, 1) + dice.randrange(365 * 1440) * MINUTE


def any_asked(dice: random.Random, base: int = 2000) -> Asked:
    """A good telegram, as a rule, with up to two values changed to odd ones."""
    asked = by_rule(any_rule(dice)) if dice.random() < 0.7 else ASKED
    at = any_minute(asked, dice, base)
    asked = sent_at(at, asked, head=dice.choice((0, 1, 32767, dice.randrange(32768))),
                    room=dice.choice((60, 61, 61, 62, 255)))
    if dice.random() < 0.6:
        month = at.month if dice.random() < 0.8 else dice.randrange(1, 13)
        asked = with_leap(last_of_month(at.year, month), asked)
    for _ in range(dice.choice((0, 0, 0, 1, 1, 2))):
        name = dice.choice(list(ODD_VALUES))
        asked = asked._replace(**{name: dice.choice(ODD_VALUES[name])})
    return asked


def any_telegram(dice: random.Random, base: int) -> bytes:
    """A case for the random stream; a few payloads are cut off or too long."""
    payload = asked_bytes(any_asked(dice, base))
    if dice.random() < 0.01:
        payload = (payload + bytes(3))[:dice.randrange(24)]
    return case(15, payload, base)


def random_ones() -> Iterator[bytes]:
    dice = random.Random(18)
    for _ in range(2000):
        yield asked_case(any_asked(dice))


def telegrams_from(first: datetime, count: int, asked: Asked, base: int = 2000) -> bytes:
    """A gap, then the telegrams sent in successive minutes, each with another head."""
    marks = bytearray(b"\x02")
    for number in range(count):
        sent = sent_at(first + number * MINUTE, asked, head=(first.year * 997 + number) % 32768)
        *parts, room = answers.telegram_parts(asked_bytes(sent))
        output = bytearray(room)
        marks += output[:telegram.write(base, *parts, output)]
    return bytes(marks)


def runs() -> Iterator[bytes]:
    """Through the changes, through leap seconds, and to both ends of the hundred years."""
    for first, count, leap, rule in RUNS:
        asked = by_rule(rule)
        yield case(12, telegrams_from(first, count, with_leap(leap, asked) if leap else asked))


def make() -> Iterator[bytes]:
    for part in (runs, european_changes, month_ends, leap_elsewhere, other_rules, random_ones,
                 case_telegram_faults.make):
        yield from part()
