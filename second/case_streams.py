"""Pulse streams for the two pulse readers: clean, damaged in every way, sharing marks, an hour of
DCF77 minutes across 2016-12-31 and across the summer changes."""

import random
from datetime import datetime, timedelta
from typing import Iterator, List

from case_parts import (LARGEST_PAYLOAD, PLAIN, WINTER, case, german_minute, local, mend_frame,
                        mend_minute, raw_frame, raw_minute, with_pulses)

SECOND = timedelta(seconds=1)
MINUTE = timedelta(minutes=1)
DAMAGES = ("flip", "lose", "double", "burst", "foreign", "gap", "drop many", "repeat many")


def damaged(stream: bytes, damage: str, at: int, dice: random.Random) -> bytes:
    """The stream with one damage at a place."""
    kept = bytearray(stream)
    width = dice.randrange(1, 30)
    if damage == "flip":
        kept[at] = 1 - kept[at] if kept[at] < 2 else dice.randrange(2)
    elif damage == "lose":
        del kept[at]
    elif damage == "double":
        kept.insert(at, kept[at])
    elif damage == "burst":
        kept[at:at + width] = bytes(dice.randrange(3) for _ in kept[at:at + width])
    elif damage == "foreign":
        kept[at] = dice.choice((3, 4, 7, 48, 49, 128, 255))
    elif damage == "gap":
        kept[at] = 2
    elif damage == "drop many":
        del kept[at:at + width]
    else:
        kept[at:at] = kept[max(0, at - width):at]
    return bytes(kept)


def split(op: int, stream: bytes) -> Iterator[bytes]:
    """Cases of a stream, in pieces that stay under the largest payload."""
    for start in range(0, len(stream), LARGEST_PAYLOAD - 1):
        yield case(op, stream[start:start + LARGEST_PAYLOAD - 1])


def frames_from(start: datetime, count: int, offset: int = WINTER) -> bytes:
    """Frames of consecutive UTC seconds, one hundred pulses each."""
    pulses = bytearray()
    for number in range(count):
        at = start + number * SECOND
        pulses += raw_frame(local(at.replace(second=0), offset, at.second))
    return bytes(pulses)


def frames_with_leap_second() -> bytes:
    """Twenty frames up to 23:59:59, the leap second's own frame, and eighteen after it."""
    midnight = datetime(2017, 1, 1)
    leap_second = raw_frame(local(midnight - MINUTE, WINTER, 60))
    return (frames_from(midnight - 20 * SECOND, 20) + bytes(leap_second)
            + frames_from(midnight, 18))


def minutes_from(start: datetime, count: int, summer_from: datetime, summer_until: datetime,
                 leap_at: datetime) -> bytes:
    """A gap, then the minutes naming consecutive UTC minutes, announced in the hour before."""
    marks = bytearray(b"\x02")
    for number in range(count):
        utc = start + number * MINUTE
        before_change = [0 <= (change - utc).total_seconds() < 3600
                         for change in (summer_from, summer_until)]
        reading = german_minute(
            utc, summer_from <= utc < summer_until, change=any(before_change),
            leap=0 <= (leap_at - utc).total_seconds() < 3600)
        marks += raw_minute(reading, number)
    return bytes(marks)


def hours() -> Iterator[bytes]:
    """An hour of minutes across the leap second of 2016 and across both changes of 2024."""
    spring, autumn = datetime(2024, 3, 31, 1), datetime(2024, 10, 27, 1)
    never = datetime(1990, 1, 1)
    leap = minutes_from(datetime(2016, 12, 31, 23, 30), 62, never, never, datetime(2017, 1, 1))
    yield from split(12, leap)
    yield from split(12, minutes_from(spring - 30 * MINUTE, 62, spring, autumn, never))
    yield from split(12, minutes_from(autumn - 30 * MINUTE, 62, spring, autumn, never))
    summer_leap = minutes_from(datetime(2015, 6, 30, 23, 50), 20, never,
                               datetime(2020, 1, 1), datetime(2015, 7, 1))
    yield from split(12, summer_leap)
    dice = random.Random(77)
    for damage in DAMAGES:
        for _ in range(6):
            yield from split(12, damaged(leap, damage, dice.randrange(len(leap) - 1), dice))


def clean_frames() -> Iterator[bytes]:
    """Case 11, frames back to back, frames sharing their marks, every start within a frame."""
    frame = bytes(raw_frame())
    yield case(11, frame + frame[1:])  # case 11 of document 01
    yield case(11, frame + frame[1:] * 5)
    yield case(11, frame[:99])
    yield case(11, frame)
    yield case(11)
    run = frames_with_leap_second()
    yield case(11, run)
    for start in range(0, 101, 5):
        yield case(11, run[start:start + 400])
    for repeats in (1, 2, 10, 100, 300):
        yield case(11, b"\x02" * repeats + frame)
        yield case(11, frame[:50] + b"\x02" * repeats + frame + frame[1:])
    for cut in range(0, 100, 3):
        yield case(11, frame[:cut] + frame + frame[cut:])


def refused_frames() -> Iterator[bytes]:
    """Frames that have the outline but are refused, each code, between good ones."""
    frame = bytes(raw_frame())
    refused: List[bytes] = [bytes(with_pulses(frame, (place,), 1))
                            for place in (5, 14, 18, 24, 34, 48, 54, 76, 78, 98)]
    refused += [bytes(mend_frame(with_pulses(frame, (start + 1, start + 3), 1)))
                for start in (1, 10, 20, 30, 35, 50, 55)]
    refused += [bytes(raw_frame(**changed)) for changed in (
        {"hour": 24}, {"second": 61}, {"day_of_year": 0}, {"second_of_day": 5}, {"deletion": 1},
        {"minus": 1, "offset_hours": 0}, {"minus": 0, "offset_hours": 13}, {"second": 60})]
    refused += [bytes(with_pulses(frame, (place,), 1 - frame[place])) for place in (1, 75, 84, 61)]
    for one in refused:
        yield case(11, frame + one + frame)
        yield case(11, frame + one[1:] + frame[1:])
    for place in range(100):
        for byte in (0, 1, 2, 3, 255):
            yield case(11, bytes(with_pulses(frame, (place,), byte)) + frame)


def damaged_frames() -> Iterator[bytes]:
    """Runs of frames with one damage, then with many."""
    dice = random.Random(1344)
    run = frames_from(datetime(2024, 2, 29, 11, 34, 50), 8)
    shared = bytes(raw_frame()) + b"".join(bytes(raw_frame(second=second))[1:]
                                           for second in range(7))
    for stream in (run, shared):
        for damage in DAMAGES:
            for _ in range(25):
                yield case(11, damaged(stream, damage, dice.randrange(len(stream) - 1), dice))
        for _ in range(80):
            changed = stream
            for _ in range(dice.randrange(2, 9)):
                changed = damaged(changed, dice.choice(DAMAGES), dice.randrange(len(changed) - 1),
                                  dice)
            yield case(11, changed)
    for _ in range(10):
        yield case(11, bytes(dice.randrange(3) for _ in range(1500)))
        yield case(12, bytes(dice.choice((0, 1, 1, 0, 2)) for _ in range(1500)))


def stretches() -> Iterator[bytes]:
    """Stretches of every length around the right ones, with and without gaps before."""
    minute = bytes(raw_minute(PLAIN))
    long = bytes(raw_minute(local(datetime(2017, 1, 1), WINTER, leap=True), 9))
    yield case(12)
    for first in (minute, long):
        yield case(12, first)
        yield case(12, b"\x02" + first)
        yield case(12, first + first + long + minute)
        yield case(12, b"\x02\x02" + first + b"\x02" + first)
        yield case(12, b"\x02" + first[:-1])
        for place in range(len(first)):
            for byte in (0, 1, 2, 3, 254):
                yield case(12, b"\x02" + bytes(with_pulses(first, (place,), byte)) + minute)
    for length in list(range(0, 8)) + list(range(54, 68)) + [119, 120, 121, 122, 240, 3000]:
        for filling in (0, 1, 3):
            yield case(12, b"\x02" + bytes((filling,)) * length + b"\x02" + minute)
    for start in range(0, 62, 4):
        yield case(12, (minute + long + minute + minute)[start:])


def refused_minutes() -> Iterator[bytes]:
    """Stretches that have the outline but are refused, each code, and runs with damage."""
    minute = bytes(raw_minute(PLAIN))
    for changed in ({"hour": 24}, {"weekday": 0}, {"weekday": 1}, {"summer_zone": 1},
                    {"winter_zone": 0}, {"month": 13}, {"start": 0}, {"day": 30}):
        yield case(12, b"\x02" + bytes(raw_minute(PLAIN, **changed)) + minute)
    for start in (21, 29, 36, 45, 50, 54):
        bad = mend_minute(with_pulses(minute, (start + 1, start + 3), 1))
        yield case(12, b"\x02" + bytes(bad) + minute)
    yield case(12, b"\x02" + bytes(raw_minute(PLAIN, length=61)) + minute)
    yield case(12, b"\x02" + bytes(with_pulses(raw_minute(PLAIN, length=61), (59,), 1)) + minute)
    dice = random.Random(775)
    run = b"\x02" + b"".join(bytes(raw_minute(german_minute(
        datetime(2024, 2, 29, 11, 34) + number * MINUTE, False), number)) for number in range(8))
    for damage in DAMAGES:
        for _ in range(25):
            yield case(12, damaged(run, damage, dice.randrange(len(run) - 1), dice))


def make() -> Iterator[bytes]:
    for part in (clean_frames, refused_frames, damaged_frames, stretches, refused_minutes, hours):
        yield from part()
