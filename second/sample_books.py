"""Books that the repository holds: a short one that a newcomer lists first, one of month ends, one of
a plant at UTC+5:45, one of the nineties, and one of every refusal."""

from datetime import datetime

from case_others import book_records
from case_parts import SUMMER, WINTER, local, raw_erlangen, raw_frame, raw_meinberg, raw_minute
from reading import Reading

UNKNOWN_KIND = b"\x09"


def clock_room() -> bytes:
    """The night of the leap second of 2016 as four clocks told it, with what a plant has seen go wrong;
    and half past midnight of New Year 2000, which in UTC is still 1999."""
    utc = datetime(2016, 12, 31, 23, 59)
    leap_second = local(utc, 0, 60, leap=True)
    before, after = local(utc, WINTER, 59), local(datetime(2017, 1, 1), WINTER)
    named = local(datetime(2017, 1, 1), WINTER, leap=True)
    early = Reading(2000, 1, 1, 0, 30, 0, WINTER, False, False, False, 0)
    records = [(1, raw_meinberg(before)), (1, raw_meinberg(leap_second)),
               (2, raw_erlangen(leap_second)), (3, raw_frame(local(utc, WINTER, 60))),
               (5, raw_minute(named, 0, 61)), (2, raw_erlangen(after)), (3, raw_frame(after)),
               (1, raw_meinberg(after, weekday=1)), (3, raw_frame(after, second_of_day=1)),
               (2, raw_erlangen(offset="-00:00")), (1, raw_meinberg(early)),
               (4, raw_minute(after, 0, 60)[:30])]
    return b"".join(bytes((kind,)) + bytes(body) for kind, body in records)


def month_ends() -> bytes:
    """Second 60 at the ends of months in four zones, where a UTC month ends and where none does; and
    the minute that names 1 March 2024, 00:00 UTC, a leap second announced, in 61 marks and in 60."""
    def sixty(year: int, month: int, day: int, hour: int, offset: int) -> Reading:
        return Reading(year, month, day, hour, 59, 60, offset, offset == SUMMER, False, False, 0)

    ends = [(2024, 2, 29, 23, 0), (2024, 3, 1, 0, WINTER), (2024, 3, 1, 1, SUMMER),
            (2023, 2, 28, 23, 0), (2024, 3, 31, 23, 0), (2024, 4, 30, 23, 0)]
    others = [(2024, 2, 28, 23, 0), (2024, 2, 29, 23, WINTER), (2024, 3, 31, 23, SUMMER)]
    march = local(datetime(2024, 3, 1), WINTER, leap=True)
    records = [(1, raw_meinberg(sixty(*at))) for at in ends + others]
    records += [(2, raw_erlangen(sixty(2024, 2, 29, 16, -28))),
                (3, raw_frame(sixty(2024, 2, 29, 23, 0))),
                (5, raw_minute(march, 0, 61)), (4, raw_minute(march, 0, 60))]
    return b"".join(bytes((kind,)) + bytes(body) for kind, body in records)


def quarter_hours() -> bytes:
    """The leap second of 2016 as a plant at UTC+5:45 told it, and a minute later, where none is; the
    moment after it in four more zones; and offsets that are none."""
    utc, after = datetime(2016, 12, 31, 23, 59), datetime(2017, 1, 1)
    told = [local(utc, 23, 59), local(utc, 23, 60), local(after, 23), local(after, 23, 60)]
    told += [local(after, offset) for offset in (22, -38, 56, -48)]
    records = [raw_erlangen(reading) for reading in told]
    records += [raw_erlangen(offset=text) for text in ("+05:50", "+14:15", "-12:15")]
    return b"".join(b"\x02" + record for record in records)


def nineties() -> bytes:
    """Tapes from 1994 on, to be listed with the base 1990: the leap second of 30 June 1994 as four
    clocks told it, with the seconds beside it; a string whose weekday fits 2094 alone; the leap second
    of 31 December 1998, its minute also a mark too short; New Year 2000; the first second that has a
    stamp, and half an hour before it."""
    def told(utc: datetime, second: int = 0, leap: bool = False) -> Reading:
        summer = utc < datetime(1994, 9, 25, 1)
        return local(utc, SUMMER if summer else WINTER, second, summer=summer, leap=leap)

    june, july = datetime(1994, 6, 30, 23, 59), datetime(1994, 7, 1)
    december, january = datetime(1998, 12, 31, 23, 59), datetime(1999, 1, 1)
    records = [(1, raw_meinberg(told(june, 59, True))), (1, raw_meinberg(local(june, 0, 60, leap=True))),
               (2, raw_erlangen(told(june, 60, True))), (3, raw_frame(told(june, 60))),
               (5, raw_minute(told(july, leap=True), 0, 61)), (1, raw_meinberg(told(july))),
               (1, raw_meinberg(told(july)._replace(year=2094))),
               (2, raw_erlangen(told(december, 60, True))), (3, raw_frame(told(january))),
               (5, raw_minute(told(january, leap=True), 0, 61)),
               (4, raw_minute(told(january, leap=True), 0, 60)),
               (1, raw_meinberg(told(datetime(1999, 12, 31, 23, 59), 59))),
               (1, raw_meinberg(told(datetime(2000, 1, 1)))),
               (1, raw_meinberg(local(datetime(1990, 1, 1), WINTER))),
               (1, raw_meinberg(local(datetime(1989, 12, 31, 23, 30), WINTER)))]
    return b"".join(bytes((kind,)) + bytes(body) for kind, body in records)


def every_refusal() -> bytes:
    """Records of every kind, refused by every code that a body can have; an unknown kind ends it."""
    return b"".join(book_records()) + UNKNOWN_KIND
