"""Cases on the leap second at every month end of a leap and of a common year, in every zone that a
string can say, with the seconds before it and the minute after; and on second 60 where no UTC month
ends."""

from datetime import datetime, timedelta
from typing import Iterator, List, Tuple

import case_frames
from case_minutes import both
from case_parts import (MEINBERG_OFFSETS, POSITION, SUMMER, WINTER, bridge_case, case, german_minute,
                        local, raw_erlangen, raw_frame, raw_meinberg, raw_minute, reading_bytes,
                        write_case)
from case_streams import minutes_from
from reading import HIGHEST_OFFSET, LOWEST_OFFSET, Reading

YEARS = (2023, 2024)
OFFSETS = range(LOWEST_OFFSET, HIGHEST_OFFSET + 1)
FEW_OFFSETS = (0, WINTER, SUMMER, 22, 23, -14, -48, 56)
MINUTE = timedelta(minutes=1)
HOUR = timedelta(hours=1)
DAY = timedelta(days=1)
NEVER, ALWAYS = datetime(1990, 1, 1), datetime(2090, 1, 1)


def firsts() -> List[datetime]:
    """00:00 UTC after each month end of the two years."""
    return [datetime(year + month // 12, month % 12 + 1, 1)
            for year in YEARS for month in range(1, 13)]


def told(reading: Reading) -> Iterator[bytes]:
    """Read, bridged and stamped."""
    yield case(1, raw_erlangen(reading))
    yield bridge_case(100, raw_erlangen(reading))
    yield case(9, reading_bytes(reading))
    if reading.offset in MEINBERG_OFFSETS:
        yield case(1, raw_meinberg(reading))
        yield bridge_case(100, raw_meinberg(reading))


def written(reading: Reading) -> Iterator[bytes]:
    """Written in every format but DCF77's, Meinberg's where it has the zone; and read as a frame."""
    if reading.offset in MEINBERG_OFFSETS:
        yield write_case(5, reading, 0, 32)
    yield write_case(6, reading, 0, 68, POSITION)
    yield from case_frames.both(reading)


def around(first: datetime) -> Iterator[Tuple[datetime, int]]:
    """UTC minute and second: the month's last seconds with the leap second, and the next."""
    for second in (58, 59, 60):
        yield first - MINUTE, second
    yield first, 0


def edges(first: datetime) -> Iterator[Tuple[datetime, int]]:
    """UTC minute and second on both sides of where the window before the leap second begins."""
    yield first - 2 * MINUTE, 59
    yield first - MINUTE, 0
    yield first - MINUTE, 1


def month_ends() -> Iterator[bytes]:
    """Every zone around each month end, some at the window's edges; announced and not."""
    for first in firsts():
        for utc, second in around(first):
            for offset in OFFSETS:
                yield from told(local(utc, offset, second, summer=offset == SUMMER, leap=True))
            for offset in FEW_OFFSETS:
                reading = local(utc, offset, second, summer=offset == SUMMER,
                                leap=first.month % 2 == 0)
                yield from told(reading._replace(leap=False))
                yield from written(reading)
        for utc, second in edges(first):
            for offset in FEW_OFFSETS:
                yield from told(local(utc, offset, second, summer=offset == SUMMER, leap=True))


def sixty_elsewhere() -> Iterator[bytes]:
    """Second 60 beside a month end by a day, an hour or a minute; at a month end that is only
    local; on the last days of every February."""
    for first in firsts():
        last = first - MINUTE
        for utc in (last - DAY, last + DAY, last - HOUR, last + HOUR, last - MINUTE, first):
            for offset in FEW_OFFSETS:
                yield from told(local(utc, offset, 60, summer=offset == SUMMER))
        for offset in OFFSETS:
            yield from told(local(last, 0, 60)._replace(offset=offset))
    for year in range(2000, 2100):
        sixty = local(datetime(year, 2, 1, 23, 59), 0, 60)
        for day in (27, 28, 29):
            yield case(1, raw_meinberg(sixty._replace(day=day)))


def minutes() -> Iterator[bytes]:
    """The minutes that name the first, its neighbours by a minute and by a day, in both zones,
    announced and not, in both lengths; and runs of minutes over each month end."""
    for first in firsts():
        for utc in (first - DAY, first - MINUTE, first, first + MINUTE, first + DAY):
            for leap in (True, False):
                for summer in (True, False):
                    yield from both(german_minute(utc, summer, leap=leap), first.month)
        for summer_until in (NEVER, ALWAYS):
            yield case(12, minutes_from(first - 4 * MINUTE, 7, NEVER, summer_until, first))


def book_around(first: datetime) -> bytes:
    """The seconds around a month end and a second 60 a day too early, as every kind tells them; and the
    minute that names the first, in both lengths and zones."""
    book = bytearray()
    for utc, second in (*around(first), (first - MINUTE - DAY, 60)):
        for offset in MEINBERG_OFFSETS:
            reading = local(utc, offset, second, summer=offset == SUMMER, leap=True)
            book += b"\x01" + raw_meinberg(reading) + b"\x02" + raw_erlangen(reading)
            book += b"\x03" + raw_frame(reading)
    for summer in (True, False):
        named = german_minute(first, summer, leap=True)
        book += b"\x04" + raw_minute(named, 0, 60) + b"\x05" + raw_minute(named, 0, 61)
    return bytes(book)


def books() -> Iterator[bytes]:
    """A book for each month end."""
    for first in firsts():
        yield case(13, book_around(first))


def make() -> Iterator[bytes]:
    for part in (month_ends, sixty_elsewhere, minutes, books):
        yield from part()
