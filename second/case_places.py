"""Cases on which refusal is given and at which place: every pair of faults in one string, frame or
minute, days that a month lacks, through readers, bridge, books and pulse readers; and every pair of
bad fields at the writers and at stamping."""

from datetime import datetime
from itertools import combinations
from typing import Callable, Dict, Iterator, List, Sequence, Tuple, Union

import case_minutes
from case_parts import (PLAIN, POSITION, WINTER, bridge_case, case, local, mend_frame, mend_minute,
                        raw_erlangen, raw_frame, raw_meinberg, raw_minute, reading_bytes,
                        write_case)
from reading import Reading

# A fault is what it changes, with the value: a field of the raw input by its name, or by its first
# pulse a digit that becomes TEN or more, or a pulse that is FLIPPED after the parities are mended.
Fault = Tuple[Union[str, int], Union[str, int, bytes]]
TEN, FLIPPED = "ten", "flipped"

TIME_FAULTS: List[Fault] = [("hour", 24), ("minute", 60), ("second", 61)]
DATE_FAULTS: List[Fault] = [("day", 0), ("day", 31), ("day", 32), ("month", 0), ("month", 13),
                            ("weekday", 0)]
STRING_FAULTS: List[Fault] = TIME_FAULTS + DATE_FAULTS + [
    ("hour", 99), ("second", 60), ("year", 2023), ("weekday", 8), ("weekday", 9), ("weekday", 1)]
MEINBERG_FAULTS: List[Fault] = STRING_FAULTS + [("letters", "?   ")]
ERLANGEN_FAULTS: List[Fault] = STRING_FAULTS + [
    ("offset", "+01:20"), ("offset", "-00:00"), ("offset", "+14:15"), ("offset", "-12:15"),
    ("letters", "      L"), ("letters", "       "), ("letters", "?      "),
    ("position", b"\x7f" * 26)]
FRAME_FAULTS: List[Fault] = TIME_FAULTS + [
    ("hour", 25), ("second", 60), ("day_of_year", 0), ("day_of_year", 367), ("second_of_day", 1),
    ("offset_hours", 0), ("offset_hours", 15), ("deletion", 1), (75, FLIPPED), (98, FLIPPED),
    *((start, TEN) for start in (1, 10, 20, 30, 35, 50, 55))]
MINUTE_FAULTS: List[Fault] = TIME_FAULTS[:2] + DATE_FAULTS + [
    ("year", 23), ("weekday", 1), ("summer_zone", 1), ("winter_zone", 0), ("length", 60),
    ("length", 61), (20, FLIPPED), (28, FLIPPED), (35, FLIPPED), (58, FLIPPED),
    *((start, TEN) for start in (21, 29, 36, 45, 50, 54))]
WRITER_FAULTS: List[Fault] = TIME_FAULTS + DATE_FAULTS[:5] + [
    ("year", 1999), ("year", 2100), ("quality", 16), ("quality", 7), ("offset", 57), ("offset", -49),
    ("offset", 5), ("offset", 10), ("second", 60), ("second", 1), ("change", True), ("room", 31)]

LONG = local(datetime(2017, 1, 1), WINTER, leap=True)  # names a minute that has 61 marks
EARLY = Reading(2000, 1, 1, 0, 30, 0, WINTER, False, False, False, 0)  # case 9: UTC 1999
DAYS = (0, 1, 28, 29, 30, 31, 32)
MONTHS = (*range(14), 19)
RECORDS, PIECES = 30, 8
# Kind of a book's record -> the op that reads its body
READERS = {1: 1, 2: 1, 3: 3, 4: 4, 5: 4}


def together(faults: Sequence[Fault], count: int) -> Iterator[Dict]:
    """So many faults at once, of as many different things."""
    for chosen in combinations(faults, count):
        if len({what for what, _ in chosen}) == count:
            yield dict(chosen)


def combined(faults: Sequence[Fault]) -> Iterator[Dict]:
    """Each fault alone, each two, and of those of time and date each three."""
    yield from together(faults, 1)
    yield from together(faults, 2)
    yield from together([fault for fault in faults if fault in TIME_FAULTS + DATE_FAULTS], 3)


def string_with(make: Callable, faults: Dict) -> bytes:
    """A string of case 6's time with these faults; an offset is text, and no number of a reading."""
    numbers = {name: value for name, value in faults.items()
               if name in Reading._fields and isinstance(value, int)}
    texts = {name: value for name, value in faults.items() if name not in numbers}
    return make(PLAIN._replace(**numbers), **texts)


def with_faults(pulses: bytearray, faults: Dict, mend: Callable) -> bytes:
    """The pulses with digits of ten and more, the parities mended, and then pulses flipped."""
    for place in [place for place, how in faults.items() if how == TEN]:
        pulses[place + 1] = pulses[place + 3] = 1
    mend(pulses)
    for place in [place for place, how in faults.items() if how == FLIPPED]:
        pulses[place] ^= 1
    return bytes(pulses)


def fields_of(faults: Dict) -> Dict:
    return {name: value for name, value in faults.items() if isinstance(name, str)}


def frames() -> List[bytes]:
    return [with_faults(raw_frame(PLAIN, **fields_of(faults)), faults, mend_frame)
            for faults in combined(FRAME_FAULTS)]


def minutes() -> List[bytes]:
    """Minutes that are due in 60 marks and minutes that are due in 61, with faults; and the three
    parities together."""
    wrong = list(combined(MINUTE_FAULTS)) + [{28: FLIPPED, 35: FLIPPED, 58: FLIPPED}]
    return [with_faults(raw_minute(due, 0, **fields_of(faults)), faults, mend_minute)
            for due in (PLAIN, LONG) for faults in wrong]


def dates() -> Iterator[Tuple[int, bytes]]:
    """Days at and beyond a month's end in every month, and in months that are none; each with its kind
    in a book."""
    for year in (2023, 2024):
        for month in MONTHS:
            for day in DAYS:
                reading = PLAIN._replace(year=year, month=month, day=day)
                yield 1, raw_meinberg(reading)
                yield 2, raw_erlangen(reading)
                yield 4, bytes(raw_minute(reading))


def in_books(inputs: Sequence[Tuple[int, bytes]]) -> Iterator[bytes]:
    """The inputs as the records of books, a few in each."""
    for start in range(0, len(inputs), RECORDS):
        records = inputs[start:start + RECORDS]
        yield case(13, b"".join(bytes((kind,)) + given for kind, given in records))


def in_runs(op: int, first: bytes, inputs: Sequence[bytes]) -> Iterator[bytes]:
    """The inputs one after the other, a few in each run, as a pulse reader takes them."""
    for start in range(0, len(inputs), PIECES):
        yield case(op, first + b"".join(inputs[start:start + PIECES]))


def readers() -> Iterator[bytes]:
    """Each input as its reader takes it, as the bridge does, in a book and in a run of pulses."""
    inputs = [(1, string_with(raw_meinberg, faults)) for faults in combined(MEINBERG_FAULTS)]
    inputs += [(2, string_with(raw_erlangen, faults)) for faults in combined(ERLANGEN_FAULTS)]
    inputs += [(3, frame) for frame in frames()]
    inputs += [(5 if len(minute) == 61 else 4, minute) for minute in minutes()]
    for kind, given in inputs + list(dates()):
        yield case(READERS[kind], given)
        if kind in (1, 2):
            yield bridge_case(100, given)
    yield from in_books(inputs)
    yield from in_runs(11, b"", [given for kind, given in inputs if kind == 3])
    yield from in_runs(12, b"\x02", [given for kind, given in inputs if kind in (4, 5)])


def asked(op: int, base: Reading, faults: Dict, room: int = 128) -> bytes:
    """A reading with these faults, given to a writer with room for it or to stamping."""
    fields = {name: value for name, value in faults.items() if name in Reading._fields}
    reading = base._replace(**fields)
    if op == 9:
        return case(9, reading_bytes(reading))
    return write_case(op, reading, faults.get("head", 0), faults.get("room", room),
                      faults.get("position", POSITION) if op == 6 else b"")


def writers() -> Iterator[bytes]:
    """Every pair at each writer, a long minute also where the room is that of 60; stamping is asked
    for a day before 2000."""
    announced = PLAIN._replace(leap=True)  # so that a change is an announcement too many
    for faults in combined(WRITER_FAULTS):
        yield asked(5, announced, faults)
        yield asked(7, PLAIN, faults)
        if not {"room", "change"} & set(faults):
            yield asked(9, EARLY, faults)
    for faults in combined(WRITER_FAULTS + [("position", POSITION[:25] + b"\x7f")]):
        yield asked(6, announced, faults)
    for faults in combined(WRITER_FAULTS + [("head", 32768)]):
        yield asked(8, case_minutes.BASE, faults)
        yield asked(8, LONG, faults, 60)


def make() -> Iterator[bytes]:
    yield from readers()
    yield from writers()
