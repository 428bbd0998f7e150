"""The Uni Erlangen (NTP) string: 68 bytes with the offset in it and 26 position bytes at 41..66.
Reads and writes it as document 01 draws it. L9: the offset's minutes are 00, 15, 30 or 45."""

from typing import Optional, Union

from layout import form_refusal, text_number
from reading import (FAILED, LOCKED, Answer, Reading, Refusal, Told, base_refusal, date_refusal,
                     digits_of, offset_refusal, reading_refusal, second_refusal, time_refusal, weekday,
                     year_of)

LENGTH = 68
LARGEST_PLACE = 67
POSITION_START = 41
POSITION_LENGTH = 26
PRINTABLE = "".join(chr(code) for code in range(32, 127))
DIGIT = "0123456789"
# Every place with the characters it may hold; p is a position byte, other letters are fields.
CHARACTERS = {"d": DIGIT, "m": DIGIT, "y": DIGIT, "w": DIGIT, "h": DIGIT, "n": DIGIT, "s": DIGIT,
              "o": DIGIT, "v": "+-", "a": "# ", "c": "* ", "S": "S ", "!": "! ", "A": "A ",
              "L": "L ", "p": PRINTABLE}
PICTURE = "\x02dd.mm.yy; w; hh:nn:ss; voo:oo; acS!A L; " + "p" * POSITION_LENGTH + "\x03"
ALLOWED = [frozenset(CHARACTERS.get(mark, mark).encode("ascii")) for mark in PICTURE]
PRINTABLE_BYTES = frozenset(PRINTABLE.encode("ascii"))
# The minutes of an offset that is none, one, two or three quarters past its hours
QUARTERS = (0, 15, 30, 45)
# Field -> its first byte; the offset's is its sign
PLACES = {name: PICTURE.index(mark) for name, mark in (
    ("day", "d"), ("month", "m"), ("year", "y"), ("weekday", "w"), ("hour", "h"), ("minute", "n"),
    ("second", "s"), ("offset", "v"))}


def said_offset(data: bytes) -> Optional[int]:
    """The offset at 24..29 in quarter hours, or nothing: not quarter hours, minus zero, out of
    range."""
    hours, minutes = text_number(data, 25), text_number(data, 28)
    if minutes not in QUARTERS:
        return None
    size = len(QUARTERS) * hours + QUARTERS.index(minutes)
    minus = data[24] == ord("-")
    if minus and size == 0:
        return None
    offset = -size if minus else size
    return None if offset_refusal(offset) else offset


def read(base: int, data: bytes) -> Answer:
    """The reading with coasting beside it, or the first refusal.
    For the door alone: clock_string.read is what reads a string."""
    refusal = form_refusal(base, data, ALLOWED)
    if refusal is not None:
        return refusal
    reading = Reading(
        year_of(base, text_number(data, 7)), text_number(data, 4), text_number(data, 1),
        text_number(data, 14), text_number(data, 17), text_number(data, 20),
        0, data[34] == ord("S"), data[36] == ord("A"), data[35] == ord("!"),
        FAILED if data[32] == ord("#") else LOCKED)
    refusal = (time_refusal(reading, PLACES)
               or date_refusal(base, reading, text_number(data, PLACES["weekday"], 1), PLACES))
    if refusal is not None:
        return refusal
    offset = said_offset(data)
    if offset is None:
        return Refusal(8, PLACES["offset"])
    reading = reading._replace(offset=offset)
    if (data[38] == ord("L")) != (reading.second == 60):
        return Refusal(9, PLACES["second"])
    return second_refusal(reading, PLACES["second"]) or Told(reading, data[33] == ord("*"))


def position_refusal(position: bytes) -> Optional[Refusal]:
    """Code 2 with the place, within the part, of its first unprintable byte."""
    for place, byte in enumerate(position):
        if byte not in PRINTABLE_BYTES:
            return Refusal(2, place)
    return None


def text_of(reading: Reading, coasting: bool) -> str:
    """The 41 characters before the position part."""
    hours, quarters = divmod(abs(reading.offset), len(QUARTERS))
    return "\x02%02d.%02d.%02d; %d; %02d:%02d:%02d; %s%02d:%02d; %s%s%s%s%s %s; " % (
        reading.day, reading.month, digits_of(reading.year), weekday(reading),
        reading.hour, reading.minute, reading.second,
        "-" if reading.offset < 0 else "+", hours, QUARTERS[quarters],
        "#" if reading.quality == FAILED else " ",
        "*" if coasting else " ",
        "S" if reading.summer else " ",
        "!" if reading.change else " ",
        "A" if reading.leap else " ",
        "L" if reading.second == 60 else " ")


def write(base: int, reading: Reading, coasting: bool, position: bytes,
          output: bytearray) -> Union[int, Refusal]:
    """Writes 68 bytes at the start of the output; a refusal leaves it as it was."""
    if len(output) < LENGTH or len(position) != POSITION_LENGTH:
        return Refusal(1)
    refusal = base_refusal(base) or position_refusal(position) or reading_refusal(base, reading)
    if refusal is not None:
        return refusal
    if reading.quality not in (LOCKED, FAILED):
        return Refusal(11)
    output[:LENGTH] = text_of(reading, coasting).encode("ascii") + position + b"\x03"
    return LENGTH
