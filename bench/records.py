"""The records that are counted: for every operation a hundred and more different ones, made with the second program."""
import datetime
import struct
import sys

import kit

sys.path.insert(0, str(kit.ROOT / "second"))
import case_parts  # noqa: E402
import dcf77  # noqa: E402
import erlangen  # noqa: E402
import ieee1344  # noqa: E402
import meinberg  # noqa: E402
import telegram  # noqa: E402
from reading import Reading  # noqa: E402

POSITION = case_parts.POSITION
ROOM = 128
BASE = 2000  # of the years, but where another is named
EARLY_BASE = 1990
NO_BASE = 1991  # one that is refused
STRINGS = ("Meinberg", "Uni Erlangen")
FORMATS = (*STRINGS, "IEEE 1344", "DCF77")
# Offsets in quarter hours, from the largest down: all of them, those that a frame carries, and those that it does not.
QUARTER_HOURS = range(56, -49, -1)
HALF_HOURS = range(56, -49, -2)
ODD_QUARTERS = range(55, -49, -2)
STRIDE = 641  # a prime, so that every offset comes before any comes again
LAST_DAY = 36494  # December 2099 is left out: its last hours name minutes of 2100


def drawn_from(offsets, number):
    return offsets[number * STRIDE % len(offsets)]


def zone_of(form, number):
    """Offset and summer flag that the format can carry."""
    if form == "Meinberg":
        return ((0, False), (4, False), (8, True))[number % 3]
    if form == "DCF77":
        return ((4, False), (8, True))[number % 2]
    return drawn_from(HALF_HOURS if form == "IEEE 1344" else QUARTER_HOURS, number), number % 2 == 1


def quality_of(form, number):
    if form == "IEEE 1344":
        return number % 16
    return 15 if form != "DCF77" and number % 5 == 0 else 0


def start_of(base):
    return datetime.datetime(base, 1, 1)


def reading_of(form, number, base=BASE):
    """Dates from all the base's hundred years, every zone; each that the format carries."""
    passed = datetime.timedelta(days=number * 7919 % 36525, minutes=number * 617 % 1440, seconds=number * 37 % 60)
    at = start_of(base) + passed
    offset, summer = zone_of(form, number)
    second = 0 if form == "DCF77" else at.second
    return Reading(at.year, at.month, at.day, at.hour, at.minute, second, offset, summer, number % 7 == 0, number % 7 == 3,
                   quality_of(form, number))


def beside_of(form, number):
    """The head, or the coasting mark."""
    return number * 1237 % 32768 if form == "DCF77" else int(number % 3 == 0)


def long_minute_of(number, base=BASE):
    """A reading whose minute has 61 marks: 00:00 UTC of the first of any month with a leap second announced."""
    offset, summer = zone_of("DCF77", number)
    first = datetime.datetime(base + 1 + number % 98, number % 12 + 1, 1)
    return case_parts.local(first, offset, summer=summer, leap=True)


def text_of(form, reading, number, base=BASE):
    """What the second program's writer writes."""
    out, beside = bytearray(ROOM), beside_of(form, number)
    length = {
        "Meinberg": lambda: meinberg.write(base, reading, beside != 0, out),
        "Uni Erlangen": lambda: erlangen.write(base, reading, beside != 0, POSITION, out),
        "IEEE 1344": lambda: ieee1344.write(base, reading, out),
        "DCF77": lambda: dcf77.write(base, reading, beside, out),
    }[form]()
    return bytes(out[:length])


def accepted(form, number, base=BASE):
    return text_of(form, reading_of(form, number, base), number, base)


def too_short(form, number):
    return accepted(form, number)[:-1] if form != "DCF77" else accepted(form, number)[:-2]


def first_byte_wrong(form, number, base=BASE):
    return b"\x07" + accepted(form, number, base)[1:]


def last_byte_wrong(form, number):
    return accepted(form, number)[:-1] + b"\x07"


def refused_late(form, number):
    """By the reader's last check: second 60 where there is none, pulse 61, or 60 marks where 61 are due."""
    reading = reading_of(form, number)
    sixty = reading._replace(second=60, minute=number % 59)
    if form == "Meinberg":
        return case_parts.raw_meinberg(sixty)
    if form == "Uni Erlangen":
        return case_parts.raw_erlangen(sixty)
    if form == "IEEE 1344":
        return bytes(case_parts.raw_frame(reading, deletion=1))
    return bytes(case_parts.raw_minute(long_minute_of(number), beside_of(form, number), length=60))


def bridged(form, number):
    """A string whose reading a frame carries."""
    reading = reading_of(form, number)
    if form == "Uni Erlangen":
        reading = reading._replace(offset=drawn_from(HALF_HOURS, number))
    return text_of(form, reading, number)


def odd_quarter_of(form, number):
    """A reading that no frame carries, for its offset alone."""
    return reading_of(form, number)._replace(offset=drawn_from(ODD_QUARTERS, number))


def bridged_in_vain(form, number):
    """Refused by the bridge's last check. Uni Erlangen's string alone: Meinberg's zones have no odd quarter."""
    return text_of(form, odd_quarter_of(form, number), number)


def asked(form, reading, number, room=ROOM):
    """A writer's record: reading, what stands beside it, room, and the position part."""
    record = case_parts.reading_bytes(reading) + struct.pack("<HB", beside_of(form, number), room)
    return record + POSITION if form == "Uni Erlangen" else record


def asked_well(form, number):
    return asked(form, reading_of(form, number), number)


def without_room(form, number):
    return asked(form, reading_of(form, number), number, room=10)


def asked_in_vain(form, number):
    """Refused by the writer's last check: a quality or an offset that it cannot carry, or a long minute in the room of 60."""
    if form == "IEEE 1344":
        return asked(form, odd_quarter_of(form, number), number)
    if form == "DCF77":
        return asked(form, long_minute_of(number), number, room=60)
    return asked(form, reading_of(form, number)._replace(quality=1 + number % 14), number)


def rule_of(number):
    """Europe's rule and others: set dates from all the year, every weekday."""
    if number % 3 == 0:
        return telegram.Rule(telegram.SetDay(3, 25, 7), telegram.SetDay(10, 25, 7))
    begin = datetime.date(2001, 1, 1) + datetime.timedelta(days=number * 41 % 200)
    end = begin + datetime.timedelta(days=7 + number * 67 % 150)
    return telegram.Rule(telegram.SetDay(begin.month, begin.day, number % 7 + 1),
                         telegram.SetDay(end.month, end.day, number * 3 % 7 + 1))


def sent_of(number, rule):
    """Minutes from all the hundred years: of seven one in the hour before a change, and one in a month's last hour, the last
    minute as often as not; with the month's last day."""
    at = start_of(BASE) + datetime.timedelta(days=number * 7919 % LAST_DAY, minutes=number * 617 % 1440)
    last = datetime.datetime(at.year + at.month // 12, at.month % 12 + 1, 1) - datetime.timedelta(days=1)
    if number % 7 == 3:
        day = telegram.day_of_change(rule[number % 2], at.year)
        at = datetime.datetime(day.year, day.month, day.day, 0, at.minute)
    elif number % 7 == 0:
        at = last.replace(hour=23, minute=59 if number % 2 else at.minute)
    return at, last


def telegram_asked(number, room=ROOM, at=None):
    """A record that a telegram is made from, with room for it; a leap second is configured in five of seven."""
    rule = rule_of(number)
    drawn, last = sent_of(number, rule)
    asked = case_parts.Asked(*rule.begin, *rule.end, 0, 0, 0, 0, 0, 0, 0, 0, 0, beside_of("DCF77", number), room)
    asked = case_parts.sent_at(at or drawn, asked)
    return case_parts.asked_bytes(case_parts.with_leap(last, asked) if number % 7 == 0 or number % 3 else asked)


def telegram_without_room(number):
    return telegram_asked(number, room=10)


def telegram_too_late(number):
    """Names a minute whose local year, and often UTC year too, is 2100."""
    return telegram_asked(number, at=datetime.datetime(2099, 12, 31, 22, 59) + datetime.timedelta(minutes=number % 61))


def frames(count):
    return b"".join(accepted("IEEE 1344", number) for number in range(count))


def minutes(count):
    """A gap, and minutes of 60 marks."""
    return b"\x02" + b"".join(accepted("DCF77", number) for number in range(1, count + 1))


def book(count, base=BASE):
    """Records of every kind in turn, of the base's years, one in ten of them refused."""
    parts = []
    for number in range(count):
        place = number % 5
        form = FORMATS[min(place, 3)]
        body = accepted(form, number, base) if place < 4 else text_of(form, long_minute_of(number, base), number, base)
        body = first_byte_wrong(form, number, base) if number % 50 in (3, 12, 21, 30, 49) and place < 4 else body
        parts.append(bytes((place + 1,)) + body)
    return b"".join(parts)
