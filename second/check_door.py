"""Self tests of the one door for both strings: literal lines; that the length alone says which string
it is; the position part; the bridge; books, whose kind fixes the length; and, for the cases of the
streams, that what is read writes back and what is written reads back, as the string that is named."""

from typing import Tuple

import answers
import book
import clock_string
import erlangen
import meinberg
from bridge import bridge
from case_door import LONG, NO_OPS, REFUSED, SHORT
from case_parts import PLAIN, POSITION
from checks import Checks
from reading import Refusal, stamp

FILLED = bytes([answers.FILLING])
FIELDS = "2024 2 29 12 34 56 4 0 0 0 0"  # of case 6
KINDS = {32: "meinberg", 68: "erlangen"}
OTHER_LENGTHS = [length for length in (*range(141), 288, 324, 65568) if length not in KINDS]
# Input of op 1, and the line.
LINES = (
    (b"\x02D:29.02.24;T:4;U:12.34.56;    \x03", "meinberg %s 0 part -" % FIELDS),
    (b"\x02D:29.02.24;T:4;U:12.34.56; *  \x03", "meinberg %s 1 part -" % FIELDS),
    (b"\x02D:31.12.16;T:6;U:23.59.60;# UA\x03", "meinberg 2016 12 31 23 59 60 0 0 1 0 15 0 part -"),
    (b"\x0229.02.24; 4; 12:34:56; +01:00;        ; " + b" " * 26 + b"\x03",
     "erlangen %s 0 part %s" % (FIELDS, "20" * 26)),
    (b"\x0229.02.24; 4; 12:34:56; +01:00;  *     ; " + POSITION + b"\x03",
     "erlangen %s 1 part %s" % (FIELDS, POSITION.hex())),
    (b"\x0201.01.17; 7; 04:59:60; -19:00;   S!A L; " + POSITION + b"\x03", "no 8 24 part -"),
    (b"\x0231.12.16; 6; 19:59:60; -04:00;   S!A L; " + POSITION + b"\x03",
     "erlangen 2016 12 31 19 59 60 -16 1 1 1 0 0 part " + POSITION.hex()),
    (b"\x0229.02.24; 4; 12:34:56; +01:00;        ; " + POSITION, "no 1 0 part -"),
    (b"\x02D:29.02.24;T:4;U:12.34.56;    \x03\n", "no 1 0 part -"),
    (b"\x02D:29.02.24;T:4;U:24.34.56;    \x03", "no 15 18 part -"),
    (b"\x02D:29.02.24;T:4;U:12.34.56;    \x03" + b" " * 36, "no 2 1 part -"),
    (b"\x0229.02.24; 4; 12:34:56; +01:00;\x03", "no 2 1 part -"), (b"", "no 1 0 part -"))
# A book's bodies that are the other string's, and the lines.
BOOKS = (
    (b"\x01" + LONG[0], ["0 1 no 2 1", "33 32 no 14 0"]),
    (b"\x01" + LONG[0][:32] + b"\x01" + SHORT[0], ["0 1 no 2 1", "33 1 ok 762530521 0"]),
    (b"\x02" + SHORT[0], ["0 2 no 13 0"]),
    (b"\x02" + SHORT[0] + SHORT[0] + bytes(4), ["0 2 no 2 1"]),
    (b"\x02" + SHORT[0] + LONG[0][32:] + b"\x02" + LONG[0], ["0 2 no 2 1", "69 2 ok 762530521 0"]),
    (b"\x02" + SHORT[0] + b"\x01" + SHORT[0] + b"\x01" + SHORT[0], ["0 2 no 2 1", "69 58 no 14 0"]),
    (b"\x01" + SHORT[0] + b"\x02" + LONG[0], ["0 1 ok 762530521 0", "33 2 ok 762530521 0"]))


def check_lines(check: Checks) -> None:
    """Literal lines, and that an op which is none is bad whatever it is given."""
    for string, line in LINES:
        check.that(answers.answer_line(1, 2000, string) == line, "line of %r" % string)
    for op in NO_OPS:
        for payload in (b"", SHORT[0], LONG[0]):
            check.that(answers.answer_line(op, 2000, payload) == answers.BAD, "op %d" % op)
    check.that(answers.answer_line(10, 2000, b"") == answers.BAD, "a bridge without room")
    check.that(answers.answer_line(10, 2000, b"\x02") == "no 1 0 a5a5", "a bridge of nothing")


def check_kinds(check: Checks) -> None:
    """A good string is named by its length, and 68 bytes have a part; a refused string has none."""
    for string in SHORT + LONG:
        told = clock_string.read(2000, string)
        check.that(told[0] == KINDS[len(string)], "kind of %r" % string)
        part = string[41:67] if len(string) == 68 else b""
        check.that(clock_string.position_part(2000, string) == part, "part of %r" % string)
        check.that(bridge(2000, string, bytearray(100)) == 100, "bridged %r" % string)
    for string in REFUSED:
        check.that(isinstance(clock_string.read(2000, string), Refusal)
                   and clock_string.position_part(2000, string) == b"", "refused %r" % string)


def check_lengths(check: Checks) -> None:
    """Every other length is code 1 at 0, whatever stands in it, to the reader and to the bridge."""
    for text in (*SHORT, *LONG, b"\x00", b" "):
        for length in OTHER_LENGTHS:
            string, frame = (text * (length // len(text) + 1))[:length], bytearray(FILLED * 100)
            name = "%d bytes of %r" % (length, text)
            check.that(clock_string.read(2000, string) == Refusal(1, 0), name)
            check.that(clock_string.position_part(2000, string) == b"", "part of " + name)
            check.that(bridge(2000, string, frame) == (1, 0) and frame == FILLED * 100,
                       "bridge of " + name)


def check_room(check: Checks) -> None:
    """The bridge looks at the room first, and writes nothing there."""
    for string in SHORT + LONG + REFUSED + (b"",):
        for room in (0, 1, 32, 68, 99):
            frame = bytearray(FILLED * room)
            check.that(bridge(2000, string, frame) == (1, 0) and frame == FILLED * room,
                       "room %d for %r" % (room, string))


def check_books(check: Checks) -> None:
    check.that(stamp(2000, PLAIN) == 762530521, "case 6's stamp")
    for records, lines in BOOKS:
        check.that(book.listing_lines(2000, records) == lines, "book %r" % records)


def check_string(check: Checks, base: int, payload: bytes, line: str) -> None:
    """A line of op 1: the word goes by the length, the part by the word; and an accepted string is
    written back to the same bytes by the writer of the kind that is named."""
    word = line.split()[0]
    if len(payload) not in KINDS:
        check.that(line == "no 1 0 part -", "another length: " + line)
    check.that(word in ("no", KINDS.get(len(payload))), "kind " + line)
    due = payload[41:67].hex() if word == "erlangen" else "-"
    check.that(line.endswith(" part " + due), "part " + line)
    if word == "no":
        return
    output = bytearray(FILLED * (len(payload) + 1))
    kind, reading, coasting = clock_string.read(base, payload)
    if kind == "meinberg":
        meinberg.write(base, reading, coasting, output)
    else:
        erlangen.write(base, reading, coasting, clock_string.position_part(base, payload), output)
    check.that(output == payload + FILLED, "write back " + line)


def check_written(check: Checks, asked: Tuple[int, int, bytes], string: bytes) -> None:
    """What a string writer wrote is read as that string, with the same reading, mark and part."""
    op, base, payload = asked
    told = (KINDS[32 if op == 5 else 68], answers.reading_of(payload), any(payload[12:14]))
    check.that(clock_string.read(base, string) == told, "read back %r" % string)
    part = payload[15:] if op == 6 else b""
    check.that(clock_string.position_part(base, string) == part, "part read back %r" % string)


def check_door(check: Checks) -> None:
    for part in (check_lines, check_kinds, check_lengths, check_room, check_books):
        part(check)
