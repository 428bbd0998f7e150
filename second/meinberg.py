"""The Meinberg standard string: 32 bytes, STX D:dd.mm.yy;T:w;U:hh.mm.ss;uvxy ETX.
Reads and writes it as document 01 draws it, its three zones in L9's quarter hours."""

from typing import Union

from layout import form_refusal, text_number
from reading import (FAILED, LOCKED, Answer, Reading, Refusal, Told, base_refusal, date_refusal,
                     digits_of, reading_refusal, second_refusal, time_refusal, weekday, year_of)

LENGTH = 32
LARGEST_PLACE = 31
DIGIT = "0123456789"
# Every place with the characters it may hold; lower-case letters stand for fields.
CHARACTERS = {"d": DIGIT, "m": DIGIT, "y": DIGIT, "w": DIGIT, "h": DIGIT, "i": DIGIT, "s": DIGIT,
              "q": "# ", "c": "* ", "z": "U S", "a": "!A "}
PICTURE = "\x02D:dd.mm.yy;T:w;U:hh.ii.ss;qcza\x03"
ALLOWED = [frozenset(CHARACTERS.get(mark, mark).encode("ascii")) for mark in PICTURE]
# Field -> its first byte
PLACES = {name: PICTURE.index(mark) for name, mark in (
    ("day", "d"), ("month", "m"), ("year", "y"), ("weekday", "w"), ("hour", "h"), ("minute", "i"),
    ("second", "s"))}
# Zone letter -> (offset in quarter hours, summer)
ZONES = {"U": (0, False), " ": (4, False), "S": (8, True)}
# Announcement letter -> (leap, change)
ANNOUNCEMENTS = {"!": (False, True), "A": (True, False), " ": (False, False)}


def read(base: int, data: bytes) -> Answer:
    """The reading with coasting beside it, or the first refusal.
    For the door alone: clock_string.read is what reads a string."""
    refusal = form_refusal(base, data, ALLOWED)
    if refusal is not None:
        return refusal
    offset, summer = ZONES[chr(data[29])]
    leap, change = ANNOUNCEMENTS[chr(data[30])]
    reading = Reading(
        year_of(base, text_number(data, 9)), text_number(data, 6), text_number(data, 3),
        text_number(data, 18), text_number(data, 21), text_number(data, 24),
        offset, summer, leap, change, FAILED if data[27] == ord("#") else LOCKED)
    return (time_refusal(reading, PLACES)
            or date_refusal(base, reading, text_number(data, PLACES["weekday"], 1), PLACES)
            or second_refusal(reading, PLACES["second"])
            or Told(reading, data[28] == ord("*")))


def cannot_carry(reading: Reading) -> bool:
    return ((reading.offset, reading.summer) not in ZONES.values()
            or (reading.leap and reading.change)
            or reading.quality not in (LOCKED, FAILED))


def key_of(table: dict, value: tuple) -> str:
    """The letter a table gives this meaning."""
    return next(letter for letter, meaning in table.items() if meaning == value)


def write(base: int, reading: Reading, coasting: bool, output: bytearray) -> Union[int, Refusal]:
    """Writes 32 bytes at the start of the output; a refusal leaves it as it was."""
    if len(output) < LENGTH:
        return Refusal(1)
    refusal = base_refusal(base) or reading_refusal(base, reading)
    if refusal is not None:
        return refusal
    if cannot_carry(reading):
        return Refusal(11)
    text = "\x02D:%02d.%02d.%02d;T:%d;U:%02d.%02d.%02d;%s%s%s%s\x03" % (
        reading.day, reading.month, digits_of(reading.year), weekday(reading),
        reading.hour, reading.minute, reading.second,
        "#" if reading.quality == FAILED else " ",
        "*" if coasting else " ",
        key_of(ZONES, (reading.offset, reading.summer)),
        key_of(ANNOUNCEMENTS, (reading.leap, reading.change)))
    output[:LENGTH] = text.encode("ascii")
    return LENGTH
