"""Self tests of what becomes of the coasting mark in the bridge: literal frames of strings with the mark
and without it, each way; what is bad and what is refused; and, for every bridged case of the streams,
that the two ways differ by the mark alone and that the frame reads back as it has to."""

import calendar
from datetime import datetime, timedelta
from itertools import product
from typing import Sequence, Tuple

import answers
import case_coasting
import clock_string
import ieee1344
from case_parts import DROPPED, POSITION, WORSE
from check_door import FILLED
from checks import Checks
from reading import Reading, Refusal, Told

Case = Tuple[int, int, bytes]  # op, base, payload
MARKED = b"\x02D:29.02.24;T:4;U:12.34.56; *  \x03"
# Frames but for pulses 70..79, of which 71..74 are the quality and 75 the parity: case 6 of document 01;
# a second that both announcements are pending in, 31.12.16 23:59:30 UTC; and the leap second after it.
NOON = ("2011001012 0010011002 0100010002 0000001102 0000000002 0010001002 0000110002 "
        "%s 0000111102 0001101002")
PENDING = ("2000001102 1001010102 1100001002 0110001102 1100000002 0110010002 1010000002 "
           "%s 0100011012 0001010102")
SIXTY = ("2000000112 1001010102 1100001002 0110001102 1100000002 0110010002 0000000002 "
         "%s 0000000112 0001010102")
# A string, its frame, and pulses 70..79 where the mark makes it look worse and where it is dropped.
FRAMES = (
    (MARKED, NOON, "0111110002", "0000010002"),
    (b"\x02D:29.02.24;T:4;U:12.34.56;    \x03", NOON, "0000010002", "0000010002"),
    (b"\x02D:29.02.24;T:4;U:12.34.56;#   \x03", NOON, "0111110002", "0111110002"),
    (b"\x02D:29.02.24;T:4;U:12.34.56;#*  \x03", NOON, "0111110002", "0111110002"),
    (b"\x0229.02.24; 4; 12:34:56; +01:00;  *     ; " + POSITION + b"\x03",
     NOON, "0111110002", "0000010002"),
    (b"\x0229.02.24; 4; 12:34:56; +01:00;        ; " + POSITION + b"\x03",
     NOON, "0000010002", "0000010002"),
    (b"\x0229.02.24; 4; 12:34:56; +01:00; #      ; " + POSITION + b"\x03",
     NOON, "0111110002", "0111110002"),
    (b"\x0229.02.24; 4; 12:34:56; +01:00; #*     ; " + POSITION + b"\x03",
     NOON, "0111110002", "0111110002"),
    (b"\x0229.02.24; 4; 12:34:56; +01:00;        ; " + b"*" * 26 + b"\x03",
     NOON, "0000010002", "0000010002"),
    (b"\x0231.12.16; 6; 23:59:30; +00:00;  * !A  ; " + POSITION + b"\x03",
     PENDING, "0111100002", "0000000002"),
    (b"\x02D:31.12.16;T:6;U:23.59.60; *UA\x03", SIXTY, "0111100002", "0000000002"))
# Other payloads of op 16, and the line. The last has no way: the string's first byte stands for it.
OTHERS = (
    (b"", "bad"), (b"\x64", "bad"), (b"\x64\x00" + MARKED, "bad"), (b"\x64\x03" + MARKED, "bad"),
    (b"\x64\xff" + MARKED, "bad"), (b"\x00\x00", "bad"), (b"\x02\x01", "no 1 0 a5a5"),
    (b"\x02\x02", "no 1 0 a5a5"), (b"\x00\x01" + MARKED, "no 1 0 -"),
    (b"\x63\x02" + MARKED, "no 1 0 " + "a5" * 99),
    (b"\x64\x01" + MARKED.replace(b"12", b"24"), "no 15 18 " + "a5" * 100),
    (b"\x64\x02" + MARKED.replace(b"12", b"24"), "no 15 18 " + "a5" * 100),
    (b"\x64\x01" + MARKED[:-1] + b"*", "no 2 31 " + "a5" * 100),
    (b"\x64\x02" + MARKED[:-1] + b"*", "no 2 31 " + "a5" * 100),
    (b"\x64" + MARKED, "no 1 0 " + "a5" * 100))


def check_lines(check: Checks) -> None:
    for string, frame, worse, dropped in FRAMES:
        for op, before, ten in ((10, b"\x64", worse), (16, b"\x64\x01", worse),
                                (16, b"\x64\x02", dropped)):
            line = "wrote 100 " + "".join("0" + pulse for pulse in (frame % ten).replace(" ", ""))
            check.that(answers.answer_line(op, 2000, before + string) == line,
                       "op %d, %r before %r" % (op, before, string))
    for payload, line in OTHERS:
        check.that(answers.answer_line(16, 2000, payload) == line, "line of %r" % payload)


def mark_and_quality(string: bytes) -> Tuple[bool, int]:
    """Whether the mark stands in an accepted string, and its own quality: from its letters alone."""
    at = {32: 27, 68: 32}[len(string)]
    return string[at + 1] == ord("*"), 15 if string[at] == ord("#") else 0


def check_stream(check: Checks) -> None:
    """Strings of both lengths, with the mark and without it, of both qualities are accepted each way."""
    seen = set()
    for op, base, payload in answers.cases_of(b"".join(case_coasting.make())):
        if op == 16 and answers.answer_line(op, base, payload).startswith("wrote"):
            seen.add((payload[1], len(payload) - 2, *mark_and_quality(payload[2:])))
    due = set(product((WORSE, DROPPED), (32, 68), (False, True), (0, 15)))
    check.that(seen == due, "accepted strings of the stream: %s" % (seen ^ due))


def due_in_frame(reading: Reading, quality: int) -> Reading:
    """A string's reading as its frame has to tell it: what is announced within its window alone."""
    utc = datetime(*reading[:5]) - timedelta(minutes=15 * reading.offset)
    last_day = calendar.monthrange(utc.year, utc.month)[1]
    month_ends = (utc.day, utc.hour, utc.minute) == (last_day, 23, 59)
    in_window = reading.second not in (0, 60)
    return reading._replace(leap=reading.leap and in_window and month_ends, quality=quality,
                            change=reading.change and in_window and reading.minute == 59)


def check_frames(check: Checks, base: int, string: bytes, reading: Reading,
                 frames: Sequence[bytes]) -> None:
    """The two frames of an accepted string. Four ones more leave the parity as it is."""
    worse, dropped = frames
    marked, own = mark_and_quality(string)
    differ = [place for place in range(100) if worse[place] != dropped[place]]
    check.that(differ == ([71, 72, 73, 74] if marked and own == 0 else []), "ways of %r" % string)
    for frame, quality in ((worse, 15 if marked else own), (dropped, own)):
        due = Told(due_in_frame(reading, quality))
        check.that(ieee1344.read(base, frame) == due, "frame of %r, due %s" % (string, due))


def check_bridged(check: Checks, asked: Case, line: str) -> None:
    """A line of op 10, which is that of the worse way, or of op 16. Whatever the way: room first, then
    the refusal that the string has anywhere, then 11 where its offset is an odd number of quarter hours,
    and nothing written; else a frame."""
    op, base, payload = asked
    room, string = payload[0], payload[1:] if op == 10 else payload[2:]
    worse, dropped = (answers.answer_line(16, base, bytes((room, way)) + string)
                      for way in (WORSE, DROPPED))
    way = WORSE if op == 10 else payload[1]
    check.that(line == {WORSE: worse, DROPPED: dropped}.get(way), "op %d: %s" % (op, line))
    told = clock_string.read(base, string) if room >= 100 else Refusal(1)
    if not isinstance(told, Refusal) and told.reading.offset % 2 == 1:
        told = Refusal(11)
    if isinstance(told, Refusal):
        due = "no %d %d %s" % (*told, FILLED.hex() * room or "-")
        check.that(worse == due and dropped == due, "refusal by either way: " + line)
        return
    words = worse.split(), dropped.split()
    written = words[0][:2] == words[1][:2] == ["wrote", "100"]
    check.that(written, "written by either way: " + line)
    if written:
        frames = [bytes.fromhex(said[2])[:100] for said in words]
        check_frames(check, base, string, told.reading, frames)


def check_coasting(check: Checks) -> None:
    check_lines(check)
    check_stream(check)
