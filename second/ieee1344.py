"""The IEEE 1344 frame: one hundred pulses, bytes 0, 1 and 2 (position mark).
Reads and writes it from a dictionary of fields, each a list of (pulse, weight). Its pulses still say
half hours, so that since L9 it does not carry an offset of an odd number of quarter hours."""

from datetime import timedelta, date
from typing import Optional, Union

from layout import (digit_refusal, digits_that_can_exceed, field_value, form_refusal, ones_are_odd,
                    parity_refusal, put_field)
from reading import (Answer, Reading, Refusal, Told, base_refusal, digits_of, lowest_refusal,
                     offset_refusal, reading_refusal, second_of_day, second_refusal, wrong_in_time,
                     year_of)

LENGTH = 100
LARGEST_PLACE = 99
MARKS = (0, 9, 19, 29, 39, 49, 59, 69, 79, 89, 99)
FIELDS = {
    "second": [(1, 1), (2, 2), (3, 4), (4, 8), (6, 10), (7, 20), (8, 40)],
    "minute": [(10, 1), (11, 2), (12, 4), (13, 8), (15, 10), (16, 20), (17, 40)],
    "hour": [(20, 1), (21, 2), (22, 4), (23, 8), (25, 10), (26, 20)],
    "day of year": [(30, 1), (31, 2), (32, 4), (33, 8), (35, 10), (36, 20), (37, 40), (38, 80),
                    (40, 100), (41, 200)],
    "year": [(50, 1), (51, 2), (52, 4), (53, 8), (55, 10), (56, 20), (57, 40), (58, 80)],
    "leap pending": [(60, 1)],
    "deletion": [(61, 1)],
    "change pending": [(62, 1)],
    "summer": [(63, 1)],
    "minus": [(64, 1)],
    "offset hours": [(65, 1), (66, 2), (67, 4), (68, 8)],
    "offset half hour": [(70, 1)],
    "quality": [(71, 1), (72, 2), (73, 4), (74, 8)],
    "parity": [(75, 1)],
    "second of day": [(80, 1), (81, 2), (82, 4), (83, 8), (84, 16), (85, 32), (86, 64), (87, 128),
                      (88, 256), (90, 512), (91, 1024), (92, 2048), (93, 4096), (94, 8192),
                      (95, 16384), (96, 32768), (97, 65536)],
}
DIGITS = digits_that_can_exceed(
    FIELDS[name] for name in ("second", "minute", "hour", "day of year", "year"))
# Field -> its first pulse; the offset's is its sign
PLACES = {name: field[0][0] for name, field in FIELDS.items()}
# What the pulses of the offset are worth, in the reading's quarter hours
HOUR = 4
HALF_HOUR = 2
PARITY_PLACES = [place for place in range(1, 76) if place not in MARKS]
DATA_PLACES = frozenset(pulse for field in FIELDS.values() for pulse, _ in field)


def allowed_at(place: int) -> frozenset:
    if place in MARKS:
        return frozenset((2,))
    return frozenset((0, 1)) if place in DATA_PLACES else frozenset((0,))


ALLOWED = [allowed_at(place) for place in range(LENGTH)]


def date_of_day(year: int, day_of_year: int) -> Optional[date]:
    """The date of a day of the year, 1 being 1 January; nothing if it falls in another year."""
    day = date(year, 1, 1) + timedelta(days=day_of_year - 1)
    return day if day.year == year else None


def said_added(pulses: bytes) -> Optional[int]:
    """The quarter hours to add to local time to reach UTC; nothing for minus zero."""
    size = (HOUR * field_value(pulses, FIELDS["offset hours"])
            + HALF_HOUR * field_value(pulses, FIELDS["offset half hour"]))
    if not field_value(pulses, FIELDS["minus"]):
        return size
    return -size if size else None


def pulses_refusal(base: int, pulses: bytes) -> Optional[Refusal]:
    """Codes 1, 19, 2, 3 and 4: what is wrong before any field means anything."""
    return (form_refusal(base, pulses, ALLOWED) or digit_refusal(pulses, DIGITS)
            or parity_refusal(pulses, {PLACES["parity"]: PARITY_PLACES}))


def read(base: int, pulses: bytes) -> Answer:
    """The reading, or the first refusal."""
    refusal = pulses_refusal(base, pulses)
    if refusal is not None:
        return refusal
    said = {name: field_value(pulses, field) for name, field in FIELDS.items()}
    clock = (said["hour"], said["minute"], said["second"])
    refusal = lowest_refusal(15, wrong_in_time(*clock), PLACES)
    if refusal is not None:
        return refusal
    day = date_of_day(year_of(base, said["year"]), said["day of year"])
    if day is None:
        return Refusal(16, PLACES["day of year"])
    if said["second of day"] != second_of_day(*clock):
        return Refusal(7, PLACES["second of day"])
    added = said_added(pulses)
    if added is None or offset_refusal(-added):
        return Refusal(8, PLACES["minus"])
    reading = Reading(day.year, day.month, day.day, *clock, -added, bool(said["summer"]),
                      bool(said["leap pending"]), bool(said["change pending"]), said["quality"])
    refusal = second_refusal(reading, PLACES["second"])
    if refusal is None and said["deletion"]:
        refusal = Refusal(10, PLACES["deletion"])
    return refusal or Told(reading)


def cannot_carry(reading: Reading) -> bool:
    return reading.offset % HALF_HOUR != 0


def said_of(reading: Reading) -> dict:
    """The value of every field but the parity."""
    added = -reading.offset
    day = date(reading.year, reading.month, reading.day)
    return {
        "second": reading.second, "minute": reading.minute, "hour": reading.hour,
        "day of year": (day - date(reading.year, 1, 1)).days + 1,
        "year": digits_of(reading.year),
        "leap pending": int(reading.leap), "change pending": int(reading.change),
        "summer": int(reading.summer), "minus": 1 if added < 0 else 0,
        "offset hours": abs(added) // HOUR, "offset half hour": abs(added) % HOUR // HALF_HOUR,
        "quality": reading.quality,
        "second of day": second_of_day(reading.hour, reading.minute, reading.second),
    }


def frame_of(said: dict) -> bytearray:
    """A frame with these field values, marks in place and the parity made even."""
    pulses = bytearray(LENGTH)
    for place in MARKS:
        pulses[place] = 2
    for name, value in said.items():
        put_field(pulses, FIELDS[name], value)
    put_field(pulses, FIELDS["parity"], int(ones_are_odd(pulses, PARITY_PLACES)))
    return pulses


def write(base: int, reading: Reading, output: bytearray) -> Union[int, Refusal]:
    """Writes 100 pulses at the start of the output; a refusal leaves it as it was."""
    if len(output) < LENGTH:
        return Refusal(1)
    refusal = base_refusal(base) or reading_refusal(base, reading)
    if refusal is not None:
        return refusal
    if cannot_carry(reading):
        return Refusal(11)
    output[:LENGTH] = frame_of(said_of(reading))
    return LENGTH
