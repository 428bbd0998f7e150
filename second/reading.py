"""The reading (local time, offset, flags), its refusals, its UTC, the leap rule and the stamp.
The calendar is Python's own datetime; everything else is taken from document 01 as four requests
amend it. L3: a leap second may close any UTC month. L5: a time, a date, and a quality or head out of
range have a code each, 15, 16 and 17 where 5 stood, and a reader's refusal gives a field's place.
L9: the offset counts quarter hours, -48 to +56. L12: a year is one of the hundred that start with the
base, 1990 or 2000, and a stamp before 2000 is negative.
(L1, L7 and L8 amend nothing here; clock_string.py, bridge.py and telegram.py have them.)"""

from datetime import date, datetime, timedelta
from typing import List, Mapping, NamedTuple, Optional, Sequence, Union

BASES = (1990, 2000)
HUNDRED = 100
STAMPED_YEARS = range(1990, 2100)  # of UTC, whichever the base
LOWEST_OFFSET = -48  # quarter hours, local minus UTC
HIGHEST_OFFSET = 56
QUARTER_HOUR = timedelta(minutes=15)
LARGEST_IN_TIME = {"hour": 23, "minute": 59, "second": 60}
LONGEST_MONTH = 31
LARGEST_QUALITY = 15
FAILED = 15
LOCKED = 0
DAY_ZERO = date(2000, 1, 1)
STAMPS_PER_DAY = 86401
ONE_MINUTE = timedelta(minutes=1)


class Reading(NamedTuple):
    """A local time; offset in quarter hours, local minus UTC."""

    year: int
    month: int
    day: int
    hour: int
    minute: int
    second: int
    offset: int
    summer: bool
    leap: bool
    change: bool
    quality: int


class Refusal(NamedTuple):
    """Why something was not taken: the papers' code, and the place. A reader gives the lowest bad
    byte for code 2, the first byte of the lowest wrong field for others, and 0 for code 1; writers
    and stamping give 0, but for a byte of the position part."""

    code: int
    place: int = 0


class Told(NamedTuple):
    """An accepted input: its reading, and what stands beside it (coasting, head or nothing)."""

    reading: Reading
    beside: Union[bool, int, None] = None


Answer = Union[Told, Refusal]


def base_refusal(base: int) -> Optional[Refusal]:
    """Code 19: any base but the two."""
    return None if base in BASES else Refusal(19)


def years_of(base: int) -> range:
    """The hundred years that start with the base."""
    return range(base, base + HUNDRED)


def year_of(base: int, digits: int) -> int:
    """The one year of the base's hundred that ends in these two digits."""
    return base + (digits - base) % HUNDRED


def digits_of(year: int) -> int:
    """The two digits that a year ends in."""
    return year % HUNDRED


def exists(year: int, month: int, day: int) -> bool:
    """Whether the calendar has the date."""
    try:
        date(year, month, day)
    except ValueError:
        return False
    return True


def wrong_in_time(hour: int, minute: int, second: int) -> List[str]:
    """The fields of a time that are out of range: code 15."""
    said = {"hour": hour, "minute": minute, "second": second}
    return [name for name, largest in LARGEST_IN_TIME.items() if not 0 <= said[name] <= largest]


def wrong_in_date(base: int, year: int, month: int, day: int) -> List[str]:
    """The fields of a date that are out of range: code 16. Where a month lacks the day, the day is
    wrong; under a wrong month a day is wrong only outside 1..31."""
    wrong = []
    if year not in years_of(base):
        wrong.append("year")
    if not 1 <= month <= 12:
        wrong.append("month")
    if not 1 <= day <= LONGEST_MONTH or (not wrong and not exists(year, month, day)):
        wrong.append("day")
    return wrong


def lowest_refusal(code: int, wrong: Sequence[str],
                   places: Mapping[str, int]) -> Optional[Refusal]:
    """The code at the lowest of the wrong fields' places; nothing where none is wrong."""
    return Refusal(code, min(places[name] for name in wrong)) if wrong else None


def time_refusal(reading: Reading, places: Mapping[str, int]) -> Optional[Refusal]:
    """Code 15 of a time that was read."""
    wrong = wrong_in_time(reading.hour, reading.minute, reading.second)
    return lowest_refusal(15, wrong, places)


def date_refusal(base: int, reading: Reading, said_weekday: int,
                 places: Mapping[str, int]) -> Optional[Refusal]:
    """Codes 16 and 6 of a date and a weekday that were read."""
    wrong = wrong_in_date(base, reading.year, reading.month, reading.day)
    if not 1 <= said_weekday <= 7:
        wrong.append("weekday")
    if not wrong and said_weekday != weekday(reading):
        return Refusal(6, places["weekday"])
    return lowest_refusal(16, wrong, places)


def fields_refusal(base: int, reading: Reading) -> Optional[Refusal]:
    """Codes 15, 16 and 17 of a reading to be written or stamped (the offset has its own code)."""
    if wrong_in_time(reading.hour, reading.minute, reading.second):
        return Refusal(15)
    if wrong_in_date(base, reading.year, reading.month, reading.day):
        return Refusal(16)
    return None if 0 <= reading.quality <= LARGEST_QUALITY else Refusal(17)


def offset_refusal(offset: int) -> Optional[Refusal]:
    """Code 8: the offset is outside -12:00..+14:00."""
    return None if LOWEST_OFFSET <= offset <= HIGHEST_OFFSET else Refusal(8)


def utc_minute(reading: Reading) -> datetime:
    """The UTC minute of a reading with good fields and offset; its second is the reading's."""
    local = datetime(reading.year, reading.month, reading.day, reading.hour, reading.minute)
    return local - reading.offset * QUARTER_HOUR


def starts_month(utc: datetime) -> bool:
    """True in the UTC minute 00:00 of the first of any month, of any year."""
    return (utc.day, utc.hour, utc.minute) == (1, 0, 0)


def in_leap_minute(reading: Reading) -> bool:
    """True in the UTC minute that second 60 may end: the last of a month, 23:59 of its last day."""
    return starts_month(utc_minute(reading) + ONE_MINUTE)


def after_leap_minute(reading: Reading) -> bool:
    """True in the UTC minute that may follow a second 60."""
    return starts_month(utc_minute(reading))


def second_refusal(reading: Reading, place: int = 0) -> Optional[Refusal]:
    """Code 9: second 60 outside the leap minute."""
    wrong = reading.second == 60 and not in_leap_minute(reading)
    return Refusal(9, place) if wrong else None


def reading_refusal(base: int, reading: Reading) -> Optional[Refusal]:
    """Codes 15, 16, 17, 8, 9 in that order: what every writer and the stamp ask of a reading, the base
    being good."""
    return (fields_refusal(base, reading) or offset_refusal(reading.offset)
            or second_refusal(reading))


def weekday(reading: Reading) -> int:
    """1 Monday .. 7 Sunday, of a reading whose date is good."""
    return date(reading.year, reading.month, reading.day).isoweekday()


def second_of_day(hour: int, minute: int, second: int) -> int:
    return hour * 3600 + minute * 60 + second


def stamp(base: int, reading: Reading) -> Union[int, Refusal]:
    """UTC day number, which is negative before 2000, times 86401 plus UTC second of the day; or a
    refusal by 19, 15, 16, 17, 8, 9 or 12."""
    refusal = base_refusal(base) or reading_refusal(base, reading)
    if refusal is not None:
        return refusal
    utc = utc_minute(reading)
    if utc.year not in STAMPED_YEARS:
        return Refusal(12)
    days = (utc.date() - DAY_ZERO).days
    return days * STAMPS_PER_DAY + second_of_day(utc.hour, utc.minute, reading.second)
