"""Self tests of telegrams made from a summer rule: literal answers, the days of change of the hundred
years against the European Union's rule worked out in two other ways, each refusal and their order,
and whole days of telegrams through the DCF77 pulse reader."""

import calendar
from datetime import date, datetime, timedelta
from typing import List, Tuple, Union

import dcf77
import telegram
from answers import FILLING, telegram_parts
from case_parts import ASKED, Asked, asked_bytes, local, sent_at, with_leap
from case_telegram_faults import LONG, UTC_OUTSIDE
from case_telegrams import by_rule
from checks import Checks
from pulse_readers import GAP, MinuteReader
from reading import Refusal, Told, utc_minute

MINUTE = timedelta(minutes=1)
DAY = timedelta(days=1)
CHANGE_MARK, SUMMER_MARK, LEAP_MARK = 16, 17, 19
# Sent minute; local minute that is named, its offset, whether it is summer and a change announced.
CHANGES_OF_2024 = (
    ((2024, 3, 30, 23, 59), (2024, 3, 31, 1, 0), 4, False, False),
    ((2024, 3, 31, 0, 0), (2024, 3, 31, 1, 1), 4, False, True),
    ((2024, 3, 31, 0, 58), (2024, 3, 31, 1, 59), 4, False, True),
    ((2024, 3, 31, 0, 59), (2024, 3, 31, 3, 0), 8, True, True),
    ((2024, 3, 31, 1, 0), (2024, 3, 31, 3, 1), 8, True, False),
    ((2024, 10, 26, 23, 59), (2024, 10, 27, 2, 0), 8, True, False),
    ((2024, 10, 27, 0, 0), (2024, 10, 27, 2, 1), 8, True, True),
    ((2024, 10, 27, 0, 58), (2024, 10, 27, 2, 59), 8, True, True),
    ((2024, 10, 27, 0, 59), (2024, 10, 27, 2, 0), 4, False, True),
    ((2024, 10, 27, 1, 0), (2024, 10, 27, 2, 1), 4, False, False))
# Sent minute; local minute that is named, whether a leap second is announced, how many marks.
LEAP_OF_2016 = (
    ((2016, 12, 31, 22, 59), (2017, 1, 1, 0, 0), False, 60),
    ((2016, 12, 31, 23, 0), (2017, 1, 1, 0, 1), True, 60),
    ((2016, 12, 31, 23, 58), (2017, 1, 1, 0, 59), True, 60),
    ((2016, 12, 31, 23, 59), (2017, 1, 1, 1, 0), True, 61),
    ((2017, 1, 1, 0, 0), (2017, 1, 1, 1, 1), False, 60))
# Dates of other leap seconds than the one of 31 December 2016.
LEAPS_ELSEWHERE = ((2015, 12, 31), (2017, 12, 31), (2016, 11, 30), (2017, 1, 31), (2016, 10, 31))
# Where the ones stand in the first telegram of summer 2024 and in the long one of 2016.
SUMMER_ONES = [16, 17, 20, 29, 30, 36, 40, 41, 42, 43, 44, 45, 46, 52, 55]
LONG_ONES = [18, 19, 20, 29, 35, 36, 42, 43, 44, 45, 50, 51, 52, 54, 58]
# Set month, day and weekday; year; month and day of the change.
FOUND = (((3, 25, 7), 2024, (3, 31)), ((3, 25, 1), 2024, (3, 25)), ((3, 31, 7), 2024, (3, 31)),
         ((3, 26, 1), 2024, (4, 1)), ((2, 28, 4), 2024, (2, 29)), ((2, 28, 4), 2023, (3, 2)),
         ((1, 1, 1), 2024, (1, 1)), ((1, 31, 2), 2024, (2, 6)))
LATE_END, LATE_END_FOUND = (12, 25, 2), {2023: (12, 26), 2024: (12, 31)}
RULES_REFUSED = (
    (2, 25, 7, 3, 3, 7), (2, 24, 7, 3, 2, 7), (2, 22, 7, 2, 28, 7), (2, 23, 7, 3, 1, 7),
    (3, 25, 7, 3, 31, 7), (12, 19, 7, 12, 25, 7), (3, 25, 7, 3, 25, 7), (10, 25, 7, 3, 25, 7),
    (3, 25, 0, 10, 25, 7), (3, 25, 8, 10, 25, 7), (3, 25, 7, 10, 25, 0), (3, 25, 7, 10, 25, 8),
    (2, 29, 7, 10, 25, 7), (1, 1, 7, 2, 29, 7), (4, 31, 7, 10, 25, 7), (3, 25, 7, 11, 31, 7),
    (0, 25, 7, 10, 25, 7), (3, 25, 7, 13, 25, 7), (3, 0, 7, 10, 25, 7), (3, 25, 7, 10, 0, 7),
    (3, 25, 7, 12, 26, 7), (3, 25, 7, 12, 31, 7), (12, 26, 7, 12, 25, 7))
RULES_GOOD = (
    (2, 25, 7, 3, 4, 7), (2, 24, 7, 3, 3, 7), (2, 22, 7, 3, 1, 7), (2, 21, 7, 2, 28, 7),
    (3, 25, 7, 4, 1, 7), (12, 18, 7, 12, 25, 7), (1, 1, 1, 12, 25, 1), (3, 25, 1, 10, 25, 6))
REFUSED = (
    (1, {"room": 0}), (1, {"room": 59}), (15, {"hour": 24}), (15, {"minute": 60}),
    (16, {"year": 1999}), (16, {"year": 2100}), (16, {"month": 0}), (16, {"month": 13}),
    (16, {"day": 0}), (16, {"day": 31}), (16, {"year": 2023, "month": 2, "day": 29}),
    (17, {"head": 32768}), (17, {"head": 65535}))
GOOD = ({"room": 60}, {"hour": 23}, {"minute": 59}, {"year": 2000}, {"year": 2099}, {"day": 30},
        {"month": 2, "day": 29}, {"head": 32767}, {"leap_year": 1999, "leap_month": 13})
LEAPS_REFUSED = ((2016, 12, 30), (1999, 12, 31), (2100, 1, 31), (2024, 2, 28), (2023, 2, 29),
                 (2024, 4, 31), (2024, 13, 0), (2024, 0, 0), (2024, 13, 31))
LEAPS_GOOD = ((2016, 12, 31), (2000, 1, 31), (2099, 12, 31), (2024, 2, 29), (2023, 2, 28),
              (2024, 4, 30))
# Each code is given though all later faults stand beside it; 12 is that of the minute.
ORDER = ((1, {"room": 59}), (18, {"end_weekday": 0}), (15, {"hour": 24}), (16, {"month": 13}),
         (17, {"head": 32768}), (9, {"leap_set": 1, "leap_year": 2016, "leap_day": 1}), (12, {}))
# First minute, days, begin and end of summer, date of a leap second.
RUNS = ((datetime(2024, 3, 30), 3, datetime(2024, 3, 31, 1), datetime(2025, 1, 1), None),
        (datetime(2024, 10, 26), 3, datetime(2024, 1, 1), datetime(2024, 10, 27, 1), None),
        (datetime(2016, 12, 30), 3, datetime(2020, 1, 1), datetime(2020, 1, 1), date(2016, 12, 31)))


def made(asked: Asked, base: int = 2000) -> Tuple[Union[int, Refusal], bytes]:
    """The writer's answer, and the buffer after it."""
    *parts, room = telegram_parts(asked_bytes(asked))
    output = bytearray([FILLING]) * room
    return telegram.write(base, *parts, output), bytes(output)


def marks_of(asked: Asked, base: int = 2000) -> bytes:
    """The telegram, empty where it was refused."""
    answer, output = made(asked, base)
    return output[:answer] if isinstance(answer, int) else b""


def check_literals(check: Checks) -> None:
    """Both changes of 2024 and the leap second of 2016, minute by minute and mark by mark."""
    for sent, named, offset, summer, change in CHANGES_OF_2024:
        told = dcf77.read(2000, marks_of(sent_at(datetime(*sent), head=1234)))
        check.that(told == ((*named, 0, offset, summer, False, change, 0), 1234), "sent %s" % (sent,))
    for sent, named, leap, length in LEAP_OF_2016:
        asked = with_leap(date(2016, 12, 31), sent_at(datetime(*sent)))
        marks = marks_of(asked)
        told = dcf77.read(2000, marks)
        check.that(len(marks) == length, "marks sent %s" % (sent,))
        check.that(told == ((*named, 0, 4, False, leap, False, 0), 0), "leap, sent %s" % (sent,))
        unset = marks_of(asked._replace(leap_set=0))
        check.that(len(unset) == 60 and unset[LEAP_MARK] == 0, "no leap second, sent %s" % (sent,))
    for elsewhere in LEAPS_ELSEWHERE:
        marks = marks_of(with_leap(date(*elsewhere), LONG))
        check.that(len(marks) == 60 and marks[LEAP_MARK] == 0, "leap second of %s" % (elsewhere,))
    for asked, ones, gap in ((sent_at(datetime(2024, 3, 31, 0, 59)), SUMMER_ONES, 59),
                             (LONG._replace(head=0), LONG_ONES, 60)):
        _, output = made(asked)
        check.that([place for place in range(gap) if output[place] == 1] == ones
                   and output[gap:] == bytes([2] + [FILLING] * (60 - gap)), "ones %s" % (ones,))


def announced_days(year: int, rule: Tuple[int, ...] = ()) -> Tuple[List[date], List[date]]:
    """The days at whose 00:30 a change is announced, and those at whose 00:31 it is summer."""
    announced, summer = [], []
    at = datetime(year, 1, 1, 0, 30)
    while at.year == year:
        _, output = made(sent_at(at, by_rule(rule)))
        if output[CHANGE_MARK] == 1:
            announced.append(at.date())
        if output[SUMMER_MARK] == 1:
            summer.append(at.date())
        at += DAY
    return announced, summer


def days_after(begin: date, end: date) -> List[date]:
    """The days after the one, up to the other: those at whose 00:31 it is summer."""
    return [begin + number * DAY for number in range(1, (end - begin).days + 1)]


def check_days(check: Checks) -> None:
    """Other rules: the set date itself, six days after it, across a month's end, 29 February."""
    for set_day, year, found in FOUND:
        begin, end = date(year, *found), date(year, *LATE_END_FOUND[year])
        announced, summer = announced_days(year, set_day + LATE_END)
        check.that(announced == [begin, end], "announced by %s in %d" % (set_day, year))
        check.that(summer == days_after(begin, end), "summer by %s in %d" % (set_day, year))


def check_union(check: Checks) -> None:
    """25 March and 25 October with Sunday are the Union's last Sundays, in every year: by a formula
    that is well known, and by the printed calendar."""
    for year in range(2000, 2100):
        march, october = 31 - (5 * year // 4 + 4) % 7, 31 - (5 * year // 4 + 1) % 7
        printed = [max(week[6] for week in calendar.monthcalendar(year, month)) for month in (3, 10)]
        begin, end = date(year, 3, march), date(year, 10, october)
        announced, summer = announced_days(year)
        check.that([day.day for day in announced] == printed, "the calendar's Sundays of %d" % year)
        check.that(announced == [begin, end], "the Union's changes of %d" % year)
        check.that(summer == days_after(begin, end), "the Union's summer of %d" % year)


def check_answer(check: Checks, asked: Asked, due: Tuple[int, int]) -> None:
    """A refusal, and the buffer as it was."""
    answer, output = made(asked)
    check.that(answer == Refusal(*due), "%s by %s, was %s" % (asked, due, answer))
    check.that(output == bytes([FILLING] * asked.room), "buffer touched by %s" % (due,))


def check_refusals(check: Checks) -> None:
    """Each refusal at its edges, and what lies just within them."""
    for rule in RULES_REFUSED:
        check_answer(check, by_rule(rule), (18, 0))
    for code, changed in REFUSED:
        check_answer(check, ASKED._replace(**changed), (code, 0))
    for leap in LEAPS_REFUSED:
        asked = ASKED._replace(leap_set=1, leap_year=leap[0], leap_month=leap[1], leap_day=leap[2])
        check_answer(check, asked, (9, 0))
    last = datetime(2099, 12, 31, 22, 59)
    for minutes in (0, 1, 60):
        check_answer(check, sent_at(last + minutes * MINUTE), (12, 0))
    good = [by_rule(rule) for rule in RULES_GOOD] + [ASKED._replace(**changed) for changed in GOOD]
    good += [with_leap(date(*leap), ASKED) for leap in LEAPS_GOOD] + [sent_at(last - MINUTE)]
    for asked in good:
        check.that(made(asked)[0] == 60, "accepted %s" % (asked,))


def check_order(check: Checks) -> None:
    """Codes 1, 18, 15, 16, 17, 9 and 12 in that order, and 1 for a long minute last."""
    for number, (code, _) in enumerate(ORDER):
        faults = {name: value for _, fault in ORDER[number:] for name, value in fault.items()}
        check_answer(check, UTC_OUTSIDE._replace(**faults), (code, 0))
    short = LONG._replace(room=60)
    check_answer(check, short, (1, 0))
    for code, fault in ORDER[1:-1]:
        check_answer(check, short._replace(**fault), (code, 0))
    check_answer(check, with_leap(date(2099, 12, 31), UTC_OUTSIDE._replace(room=60)), (12, 0))


def check_runs(check: Checks) -> None:
    """Whole days after a first gap: the reader says each named minute at the end of its telegram,
    with its head, and nothing else; one telegram is long where there is a leap second."""
    for first, days, begin, end, leap in RUNS:
        asked = with_leap(leap, ASKED) if leap else ASKED
        reader, lengths = MinuteReader(2000), []
        check.that(reader.take(GAP) is None, "said at the first gap")
        for number in range(days * 1440):
            sent = first + number * MINUTE
            marks = marks_of(sent_at(sent, asked, head=number * 7 % 32768))
            lengths.append(len(marks))
            said = [reader.take(mark) for mark in marks]
            summer = begin <= sent + MINUTE < end
            named = local(sent + MINUTE, 8 if summer else 4, summer=summer,
                          change=sent.hour == 0 and sent.date() in (begin.date(), end.date()),
                          leap=sent.hour == 23 and sent.date() == leap)
            check.that(said[-1:] == [Told(named, number * 7 % 32768)] and not any(said[:-1]),
                       "said of the telegram sent at %s" % sent)
        check.that(lengths.count(61) == (leap is not None), "long telegrams from %s" % first)


def check_read_back(check: Checks, base: int, payload: bytes, marks: bytes) -> None:
    """A telegram that was made reads as the minute after the one being sent, with its head."""
    _, _, sent, head, _ = telegram_parts(payload)
    told = dcf77.read(base, marks)
    check.that(isinstance(told, Told) and told.beside == head
               and utc_minute(told.reading) == datetime(*sent) + MINUTE, "telegram %r" % (sent,))


def check_telegrams(check: Checks) -> None:
    for part in (check_literals, check_days, check_union, check_refusals, check_order, check_runs):
        part(check)
