"""The telegram of L8: from our own summer rule, a configured leap second, the UTC minute being sent
and a head, the DCF77 minute that names the minute after the one being sent. L12: all of its years are of
the base's hundred."""

from datetime import date, datetime, time, timedelta
from typing import NamedTuple, Optional, Tuple, Union

import dcf77
from reading import (ONE_MINUTE, QUARTER_HOUR, Reading, Refusal, base_refusal, exists, wrong_in_date,
                     wrong_in_time, years_of)

ONE_HOUR = timedelta(hours=1)
ONE_DAY = timedelta(days=1)
LATEST_AFTER = timedelta(days=6)  # a weekday is at most so far from the set date
LAST_SET_DATE = (12, 25)  # month and day
CHANGE_AT = time(1)  # UTC
A_COMMON_YEAR = 2001
A_LEAP_YEAR = 2000
WINTER_OFFSET = 4  # quarter hours, local minus UTC
SUMMER_OFFSET = 8


class SetDay(NamedTuple):
    """A change is on the first such weekday (1 Monday .. 7 Sunday) at or after the date."""

    month: int
    day: int
    weekday: int


class Rule(NamedTuple):
    """When summer begins and when it ends."""

    begin: SetDay
    end: SetDay


class Sent(NamedTuple):
    """The UTC minute being sent."""

    year: int
    month: int
    day: int
    hour: int
    minute: int


LeapDate = Optional[Tuple[int, int, int]]  # year, month and day in UTC; none is configured


def set_day_is_good(set_day: SetDay) -> bool:
    """A common year has the date, so that it is not 29 February."""
    return (1 <= set_day.weekday <= 7 and exists(A_COMMON_YEAR, set_day.month, set_day.day)
            and (set_day.month, set_day.day) <= LAST_SET_DATE)


def rule_is_good(rule: Rule) -> bool:
    """Both days are good, and the latest begin is before the earliest end in every year."""
    if not all(map(set_day_is_good, rule)):
        return False
    return all(date(year, rule.begin.month, rule.begin.day) + LATEST_AFTER
               < date(year, rule.end.month, rule.end.day)
               for year in (A_COMMON_YEAR, A_LEAP_YEAR))


def day_of_change(set_day: SetDay, year: int) -> date:
    """The first day at or after the set date that falls on the set weekday."""
    day = date(year, set_day.month, set_day.day)
    while day.isoweekday() != set_day.weekday:
        day += ONE_DAY
    return day


def changes(rule: Rule, year: int) -> Tuple[datetime, datetime]:
    """When summer begins and when it ends, in UTC."""
    begin, end = (datetime.combine(day_of_change(set_day, year), CHANGE_AT) for set_day in rule)
    return begin, end


def ends_month(base: int, year: int, month: int, day: int) -> bool:
    """Whether this is the last day of a month of the base's hundred years."""
    return (year in years_of(base) and exists(year, month, day)
            and (date(year, month, day) + ONE_DAY).day == 1)


def asked_refusal(base: int, rule: Rule, leap: LeapDate, sent: Sent, head: int) -> Optional[Refusal]:
    """Codes 18, 15, 16, 17 and 9 in that order: what is wrong with what was asked, the base being
    good."""
    if not rule_is_good(rule):
        return Refusal(18)
    if wrong_in_time(sent.hour, sent.minute, 0):
        return Refusal(15)
    if wrong_in_date(base, sent.year, sent.month, sent.day):
        return Refusal(16)
    if not 0 <= head <= dcf77.LARGEST_HEAD:
        return Refusal(17)
    return None if leap is None or ends_month(base, *leap) else Refusal(9)


def is_in_hour_before(moment: datetime, at: datetime) -> bool:
    return moment - ONE_HOUR <= at < moment


def leap_is_announced(leap: LeapDate, at: datetime) -> bool:
    """In the hour that the leap second closes, which is the last of its day."""
    if leap is None:
        return False
    return is_in_hour_before(datetime(*leap) + ONE_DAY, at)


def reading_of(named: datetime, rule: Rule, leap: bool, change: bool) -> Reading:
    """The UTC minute in the zone that it lies in by the rule, with these announcements."""
    begin, end = changes(rule, named.year)
    summer = begin <= named < end
    offset = SUMMER_OFFSET if summer else WINTER_OFFSET
    local = named + offset * QUARTER_HOUR
    return Reading(local.year, local.month, local.day, local.hour, local.minute, 0, offset, summer,
                   leap, change, 0)


def write(base: int, rule: Rule, leap: LeapDate, sent: Sent, head: int,
          output: bytearray) -> Union[int, Refusal]:
    """Writes the telegram that is sent in this minute, as the DCF77 writer writes the named one; a
    refusal leaves the output as it was."""
    if len(output) < dcf77.LENGTH:
        return Refusal(1)
    refusal = base_refusal(base) or asked_refusal(base, rule, leap, sent, head)
    if refusal is not None:
        return refusal
    at = datetime(*sent)
    named = at + ONE_MINUTE
    change = any(is_in_hour_before(moment, at) for moment in changes(rule, at.year))
    reading = reading_of(named, rule, leap_is_announced(leap, at), change)
    if not all(year in years_of(base) for year in (named.year, reading.year)):
        return Refusal(12)
    return dcf77.write(base, reading, head, output)
