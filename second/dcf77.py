"""The DCF77 minute: 60 or 61 marks, 0 short, 1 long, 2 missing; it names the minute after it.
Reads and writes it from a dictionary of fields, each a list of (mark, weight); its two zones are in
L9's quarter hours."""

from typing import Optional, Union

from layout import (digit_refusal, digits_that_can_exceed, field_value, form_refusal, ones_are_odd,
                    parity_refusal, put_field)
from reading import (Answer, Reading, Refusal, Told, after_leap_minute, base_refusal, date_refusal,
                     digits_of, fields_refusal, reading_refusal, time_refusal, weekday, year_of)

LENGTH = 60
LARGEST_PLACE = 59
LONG_LENGTH = 61
LONG_LARGEST_PLACE = 60
LARGEST_HEAD = 32767
FIELDS = {
    "head": [(mark, 2 ** (mark - 1)) for mark in range(1, 16)],
    "change": [(16, 1)],
    "summer zone": [(17, 1)],
    "winter zone": [(18, 1)],
    "leap": [(19, 1)],
    "start": [(20, 1)],
    "minute": [(21, 1), (22, 2), (23, 4), (24, 8), (25, 10), (26, 20), (27, 40)],
    "hour": [(29, 1), (30, 2), (31, 4), (32, 8), (33, 10), (34, 20)],
    "day": [(36, 1), (37, 2), (38, 4), (39, 8), (40, 10), (41, 20)],
    "weekday": [(42, 1), (43, 2), (44, 4)],
    "month": [(45, 1), (46, 2), (47, 4), (48, 8), (49, 10)],
    "year": [(50, 1), (51, 2), (52, 4), (53, 8), (54, 10), (55, 20), (56, 40), (57, 80)],
}
DIGITS = digits_that_can_exceed(FIELDS[name] for name in ("minute", "hour", "day", "month", "year"))
# Field -> its first mark; the zone's is that of summer
PLACES = {name: field[0][0] for name, field in FIELDS.items()}
PARITY_GROUPS = {28: range(21, 29), 35: range(29, 36), 58: range(36, 59)}
# (summer zone, winter zone) -> (offset in quarter hours, summer)
ZONES = {(0, 1): (4, False), (1, 0): (8, True)}


def allowed_for(length: int) -> list:
    """What each mark may be: 0 at the start, 1 at mark 20, a gap at the end, 0 at a long 59."""
    allowed = [frozenset((0, 1))] * length
    allowed[0] = frozenset((0,))
    allowed[20] = frozenset((1,))
    if length == LONG_LENGTH:
        allowed[59] = frozenset((0,))
    allowed[length - 1] = frozenset((2,))
    return allowed


ALLOWED = {length: allowed_for(length) for length in (LENGTH, LONG_LENGTH)}


def is_long(reading: Reading) -> bool:
    """The leap rule: 61 marks exactly when leap is announced and this minute follows it."""
    return bool(reading.leap) and after_leap_minute(reading)


def marks_refusal(base: int, marks: bytes) -> Optional[Refusal]:
    """Codes 1, 19, 2, 3 and 4: what is wrong before any field means anything."""
    if len(marks) not in ALLOWED:
        return Refusal(1)
    return (form_refusal(base, marks, ALLOWED[len(marks)]) or digit_refusal(marks, DIGITS)
            or parity_refusal(marks, PARITY_GROUPS))


def read(base: int, marks: bytes) -> Answer:
    """The reading of the named minute with the head beside it, or the first refusal."""
    refusal = marks_refusal(base, marks)
    if refusal is not None:
        return refusal
    said = {name: field_value(marks, field) for name, field in FIELDS.items()}
    reading = Reading(year_of(base, said["year"]), said["month"], said["day"], said["hour"],
                      said["minute"], 0, 0, False, bool(said["leap"]), bool(said["change"]), 0)
    # No mark says the second, which is 0 and never wrong.
    refusal = (time_refusal(reading, PLACES)
               or date_refusal(base, reading, said["weekday"], PLACES))
    if refusal is not None:
        return refusal
    zone = ZONES.get((said["summer zone"], said["winter zone"]))
    if zone is None:
        return Refusal(8, PLACES["summer zone"])
    reading = reading._replace(offset=zone[0], summer=zone[1])
    if is_long(reading) != (len(marks) == LONG_LENGTH):
        return Refusal(9, len(marks) - 1)
    return Told(reading, said["head"])


def cannot_carry(reading: Reading) -> bool:
    return (reading.second != 0 or reading.quality != 0
            or (reading.offset, reading.summer) not in ZONES.values())


def head_refusal(head: int) -> Optional[Refusal]:
    """Code 17, which a quality out of range has too."""
    return None if 0 <= head <= LARGEST_HEAD else Refusal(17)


def said_of(reading: Reading, head: int) -> dict:
    """The value of every field."""
    return {
        "head": head, "change": int(reading.change), "leap": int(reading.leap), "start": 1,
        "summer zone": int(reading.summer), "winter zone": int(not reading.summer),
        "minute": reading.minute, "hour": reading.hour, "day": reading.day,
        "weekday": weekday(reading), "month": reading.month, "year": digits_of(reading.year),
    }


def minute_of(said: dict, length: int) -> bytearray:
    """A minute with these field values, the closing gap in place and the parities made even."""
    marks = bytearray(length)
    marks[length - 1] = 2
    for name, value in said.items():
        put_field(marks, FIELDS[name], value)
    for parity, group in PARITY_GROUPS.items():
        marks[parity] = int(ones_are_odd(marks, group))
    return marks


def write(base: int, reading: Reading, head: int, output: bytearray) -> Union[int, Refusal]:
    """Writes 60 or 61 marks at the start of the output; a refusal leaves it as it was."""
    if len(output) < LENGTH:
        return Refusal(1)
    refusal = (base_refusal(base) or fields_refusal(base, reading) or head_refusal(head)
               or reading_refusal(base, reading))
    if refusal is not None:
        return refusal
    if cannot_carry(reading):
        return Refusal(11)
    length = LONG_LENGTH if is_long(reading) else LENGTH
    if len(output) < length:
        return Refusal(1)
    output[:length] = minute_of(said_of(reading, head), length)
    return length
