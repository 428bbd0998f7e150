"""Random cases over all ops and bases from a seed, most of them nearly valid. What is drawn does not
depend on the base; but under base 1990 most years are moved towards its hundred."""

import random
from datetime import datetime, timedelta
from typing import Callable, Iterator, Tuple

import erlangen
import meinberg
from case_door import fitted
from case_parts import (DROPPED, NO_BASES, POSITION, SUMMER, WINTER, WORSE, bridge_case,
                        bridge_with_case, case, local, mend_frame, mend_minute, raw_erlangen,
                        raw_frame, raw_meinberg, raw_minute, reading_bytes, write_case)
from case_streams import DAMAGES, damaged
from case_telegrams import any_telegram, moved
from reading import Reading

DAY_COUNT = 36525
SHARE_OF_TELEGRAMS = 1 / 14  # as of each other op
ODD_VALUES = {"year": (1999, 2100, 0, 65535), "month": (0, 13, 255), "day": (0, 29, 30, 31, 32, 255),
              "hour": (24, 0, 23, 255), "minute": (60, 59, 0, 255), "second": (60, 61, 59, 0, 255),
              "offset": (-49, 57, -48, 56, 23, -128, 127), "quality": (0, 1, 14, 15, 16, 255)}
STRING_VALUES = {"month": (0, 13, 99), "day": (0, 29, 30, 31, 32, 99), "hour": (24, 0, 23, 99),
                 "minute": (60, 59, 0, 99), "second": (60, 61, 59, 0, 99)}


def good_reading(dice: random.Random) -> Reading:
    """A reading that any format may still refuse; often near a month end."""
    offset = dice.choice((0, WINTER, SUMMER, WINTER, SUMMER, dice.randrange(-48, 57)))
    utc = datetime(2000, 1, 1) + timedelta(days=dice.randrange(DAY_COUNT),
                                           minutes=dice.randrange(1440))
    second = dice.choice((0, 0, 1, 59, dice.randrange(60)))
    if dice.random() < 0.3:
        month = dice.choice((1, 3, 7, dice.randrange(1, 13), dice.randrange(1, 13)))
        day = dice.choice((1, 1, 1, 1, 2, dice.randrange(2, 29)))
        utc = datetime(dice.randrange(2001, 2099), month, day)
        utc += timedelta(minutes=dice.choice((-2, -1, -1, -1, 0, 0)))
        second = dice.choice((0, 1, 59, 60, 60))
    reading = local(utc, offset, second, summer=offset == SUMMER,
                    leap=dice.random() < 0.3, change=dice.random() < 0.2,
                    quality=dice.choice((0, 0, 0, 15, 15, dice.randrange(16))))
    if dice.random() < 0.03:  # the hundred years' first and last hour, UTC perhaps outside
        edge = dice.choice(((2000, 1, 1, 0), (2099, 12, 31, 23)))
        return reading._replace(year=edge[0], month=edge[1], day=edge[2], hour=edge[3])
    return reading if 2000 <= reading.year <= 2099 else reading._replace(year=2050)


def any_base(dice: random.Random) -> int:
    """2000 or 1990, seldom what is no base."""
    luck = dice.random()
    return 2000 if luck < 0.5 else 1990 if luck < 0.9 else dice.choice(NO_BASES)


def any_reading(dice: random.Random, base: int, odd: dict = ODD_VALUES) -> Reading:
    """A good reading with up to two fields changed to edge values."""
    reading = good_reading(dice)
    reading = reading._replace(year=moved(base, reading.year))
    for _ in range(dice.choice((0, 0, 0, 1, 1, 2))):
        name = dice.choice(list(odd))
        reading = reading._replace(**{name: dice.choice(odd[name])})
    if dice.random() < 0.05:
        reading = reading._replace(summer=not reading.summer)
    return reading


def spoiled(data: bytes, dice: random.Random, alphabet: bytes, mend: Callable) -> bytes:
    """Half the time the data as it is, else with a few changed bytes or another length."""
    changed = bytearray(data)
    way = dice.randrange(12)
    if way >= 6 and way < 11:
        for _ in range(dice.choice((1, 1, 2, 3))):
            at = dice.randrange(len(changed))
            changed[at] = dice.choice(alphabet) if way < 10 else dice.randrange(256)
        if way in (6, 7):
            changed = mend(changed)
    elif way == 11:
        length = max(0, len(changed) + dice.choice((-1, 1, -2, 2, -len(changed), 8, 36)))
        changed = (changed * 3)[:length]
    return bytes(changed)


def as_it_is(data: bytearray) -> bytearray:
    return data


def now_and_then_fitted(string: bytes, length: int, dice: random.Random) -> bytes:
    """The string, seldom cut or padded to the length of the other."""
    if dice.random() < 0.96:
        return string
    return dice.choice(fitted(string, length, dice.choice((b" ", b"\x00", b"0", string or b" "))))


def a_meinberg(dice: random.Random, base: int) -> bytes:
    weekday = dice.choice((-1, -1, -1, -1, dice.randrange(10)))
    string = raw_meinberg(any_reading(dice, base, STRING_VALUES), weekday,
                          coasting=dice.random() < 0.3)
    string = spoiled(string, dice, b"0123456789 U!AS#*", as_it_is)
    return now_and_then_fitted(string, erlangen.LENGTH, dice)


def an_erlangen(dice: random.Random, base: int) -> bytes:
    weekday = dice.choice((-1, -1, -1, -1, dice.randrange(10)))
    offset = dice.choice(("", "", "", "", "-00:00", "+14:15", "+05:45", "-12:15", "+05:50"))
    string = raw_erlangen(any_reading(dice, base, STRING_VALUES), weekday, offset,
                          coasting=dice.random() < 0.3)
    string = spoiled(string, dice, b"0123456789 L!AS#*+-", as_it_is)
    return now_and_then_fitted(string, meinberg.LENGTH, dice)


def a_frame(dice: random.Random, base: int) -> bytes:
    reading = any_reading(dice, base, {
        "hour": (24, 29, 0), "minute": (60, 79, 59), "second": (60, 61, 79),
        "offset": (-62, 58, 62, -50, 0), "month": (13,), "day": (30, 31)})
    changed = {}
    if dice.random() < 0.1:
        changed = dice.choice(({"deletion": 1}, {"minus": 1}, {"day_of_year": 366},
                               {"second_of_day": dice.randrange(86401)}, {"day_of_year": 0}))
    return spoiled(raw_frame(reading, **changed), dice, b"\x00\x01\x00\x01\x00\x01\x02", mend_frame)


def a_minute(dice: random.Random, base: int) -> bytes:
    reading = any_reading(dice, base, {"hour": (24, 29, 0), "minute": (60, 79, 0),
                                       "day": (0, 30, 31, 39), "month": (0, 13, 19)})
    changed = {}
    if dice.random() < 0.1:
        changed = dice.choice(({"summer_zone": 1}, {"winter_zone": 0}, {"weekday": 0},
                               {"weekday": dice.randrange(8)}, {"start": 0}))
    long = reading.leap and reading.minute == 0
    length = dice.choice((60, 61)) if dice.random() < 0.1 else 61 if long else 60
    marks = raw_minute(reading, dice.randrange(32768), length, **changed)
    return spoiled(marks, dice, b"\x00\x01\x00\x01\x00\x01\x02", mend_minute)


def a_write(op: int, length: int, dice: random.Random, base: int) -> bytes:
    reading = any_reading(dice, base)
    if op == 8 and dice.random() < 0.8:
        reading = reading._replace(second=0, quality=0,
                                   offset=SUMMER if reading.summer else WINTER)
    room = dice.choice((length, length, length, length + 1, length - 1, 255, 0, length + 2))
    beside = dice.choice((0, 1)) if op in (5, 6) else dice.choice(
        (0, 1, 32767, dice.randrange(32768), dice.randrange(32768), dice.randrange(65536)))
    position = b""
    if op == 6:
        position = spoiled(POSITION, dice, b"0123456789 NEm\x1f\x7f", as_it_is)[:60]
    return write_case(op, reading, beside, room, position, base)


def a_bridge(dice: random.Random, base: int) -> bytes:
    """Half the time with a way named, seldom one that is none. The string itself seeds the dice for
    that, so that the other cases of a seed do not depend on it."""
    string = dice.choice((a_meinberg, an_erlangen))(dice, base)
    room = dice.choice((100, 100, 100, 100, 101, 99, 255, 0))
    own_dice = random.Random(string)
    if own_dice.random() < 0.5:
        return bridge_case(room, string, base)
    known = own_dice.random() < 0.95
    way = own_dice.choice((WORSE, DROPPED)) if known else own_dice.randrange(256)
    return bridge_with_case(room, way, string, base)


def a_stream(op: int, dice: random.Random, base: int) -> bytes:
    """Up to three frames or minutes with some damage, some sharing a mark."""
    stream = b"" if op == 11 else b"\x02"
    for _ in range(dice.choice((1, 2, 2, 3))):
        piece = a_frame(dice, base) if op == 11 else a_minute(dice, base)
        stream += piece[1:] if op == 11 and stream and dice.random() < 0.4 else piece
    for _ in range(dice.choice((0, 0, 1, 2))):
        if len(stream) > 2:
            stream = damaged(stream, dice.choice(DAMAGES), dice.randrange(len(stream) - 1), dice)
    return case(op, stream, base)


def a_book(dice: random.Random, base: int) -> bytes:
    book = b""
    for _ in range(dice.randrange(6)):
        kind = dice.choice((1, 2, 3, 4, 4, 5))
        make_body = {1: a_meinberg, 2: an_erlangen, 3: a_frame, 4: a_minute, 5: a_minute}[kind]
        body = make_body(dice, base)
        if kind in (1, 2) and dice.random() < 0.05:
            kind = 3 - kind  # a string under the other's kind, which fixes the length
        if dice.random() < 0.9:
            length = {1: 32, 2: 68, 3: 100, 4: 60, 5: 61}[kind]
            body = (body + bytes(length))[:length]
        book += bytes((kind,)) + body
    if dice.random() < 0.2:
        book += bytes((dice.randrange(256),))
    return case(13, book, base)


def a_bad_case(dice: random.Random, base: int) -> bytes:
    op = dice.choice((0, 2, 5, 6, 7, 8, 9, 10, 14, 16, 21, 24, 128, 255))
    return case(op, bytes(dice.randrange(256) for _ in range(dice.randrange(16))), base)


# Each is drawn as often as each other.
MAKERS: Tuple[Callable[[random.Random, int], bytes], ...] = (
    lambda dice, base: case(1, a_meinberg(dice, base), base),
    lambda dice, base: case(1, an_erlangen(dice, base), base),
    lambda dice, base: case(3, a_frame(dice, base), base),
    lambda dice, base: case(4, a_minute(dice, base), base),
    lambda dice, base: a_write(5, 32, dice, base),
    lambda dice, base: a_write(6, 68, dice, base),
    lambda dice, base: a_write(7, 100, dice, base),
    lambda dice, base: a_write(8, 60, dice, base),
    lambda dice, base: case(9, reading_bytes(any_reading(dice, base)), base),
    a_bridge,
    lambda dice, base: a_stream(11, dice, base),
    lambda dice, base: a_stream(12, dice, base),
    a_book,
)
# Op that lists changes, and what makes a good input of it
CHANGES = ((20, raw_meinberg), (20, raw_erlangen), (22, raw_frame), (23, raw_minute))


def a_change_case(dice: random.Random, base: int) -> bytes:
    """Every change of a good input; that is long work, so such cases are rare."""
    op, make_input = dice.choice(CHANGES)
    reading = good_reading(dice)
    reading = reading._replace(year=moved(base, reading.year))
    if op == 23:
        long = reading.leap and reading.minute == 0
        return case(op, raw_minute(reading, dice.randrange(32768), 61 if long else 60), base)
    return case(op, make_input(reading), base)


def any_other(dice: random.Random, base: int) -> bytes:
    """A case of any op but that of telegrams."""
    luck = dice.random()
    if luck < 0.0002:
        return a_change_case(dice, base)
    if luck < 0.01:
        return a_bad_case(dice, base)
    return dice.choice(MAKERS)(dice, base)


def make(seed: int, count: int) -> Iterator[bytes]:
    """Telegrams and bases are each drawn by dice of their own, so that the other cases of a seed do not
    depend on them."""
    dice, own_dice = random.Random(seed), random.Random("telegrams %d" % seed)
    base_dice = random.Random("bases %d" % seed)
    for _ in range(count):
        base = any_base(base_dice)
        is_telegram = own_dice.random() < SHARE_OF_TELEGRAMS
        yield any_telegram(own_dice, base) if is_telegram else any_other(dice, base)
