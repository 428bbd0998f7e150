"""Self tests of bases, of what is more than one string or frame: runs of pulses, telegrams, books and the
listing program's argument; and the header of a case."""

from datetime import date, datetime
from itertools import product
from typing import List, Tuple, Union

import answers
import book
import case_bases
from case_parts import ASKED, local, raw_frame, raw_meinberg, raw_minute, reading_bytes, sent_at, with_leap
from check_bases import BASES, MINUTE, NINETIES, moment
from check_telegrams import made, marks_of
from checks import Checks
from pulse_readers import FrameReader, MinuteReader
from reading import Refusal, Told

HEADER = "at kind answer value place"
NIGHT = (b"\x01\x02D:30.06.94;T:4;U:23.59.60;  UA\x03" b"\x01\x02D:01.07.94;T:5;U:02.00.00;  S \x03"
         b"\x01\x02D:01.07.94;T:4;U:02.00.00;  S \x03" b"\x01\x02D:01.01.00;T:6;U:00.59.60;    \x03")
# Base, book, and its lines.
LISTINGS = (
    (1990, NIGHT, ["0 1 ok -173666011 0", "33 1 ok -173666010 0", "66 1 no 6 14", "99 1 ok -1 0"]),
    (2000, NIGHT, ["0 1 no 6 14", "33 1 no 6 14", "66 1 ok 2982130515 0", "99 1 ok -1 0"]),
    (1990, NIGHT[:33] + b"\x09", ["0 1 ok -173666011 0", "33 9 no 14 0"]),
    (1991, NIGHT, ["0 0 no 19 0"]), (0, b"", ["0 0 no 19 0"]), (1990, b"", []), (2000, b"", []),
    (19, b"\x09", ["0 0 no 19 0"]), (19, bytes(65536), ["0 0 no 19 0"]),
    (19, bytes(65537), ["0 0 no 1 0"]), (1990, bytes(65537), ["0 0 no 1 0"]))
# The listing program's arguments, and the base; 0 is none.
ARGUMENTS = (
    ((), 2000), ((b"1990",), 1990), ((b"2000",), 2000), ((b"1990", b"2000"), 1990),
    ((b"2000", b"zzz"), 2000), ((b"zzz", b"1990"), 0), ((b"",), 0), ((b"", b"1990"), 0),
    ((b" 2000",), 0), ((b"02000",), 0), ((b"1990 ",), 0), ((b"+2000",), 0), ((b"1991",), 0),
    ((b"199",), 0), ((b"19900",), 0), ((b"1990\n",), 0), ((b"\xff",), 0), ((b"0",), 0))
# Cases as bytes, and the lines: the smallest stamp, a base with its bytes swapped, cut off.
FIRST = b"\xc6\x07\x01\x01\x00\x00\x00\x00\x00\x00\x00\x00"
CASES = (
    (b"\x09\xc6\x07\x0c\x00" + FIRST, ["at -315536452"]),
    (b"\x09\xd0\x07\x0c\x00" + FIRST, ["no 16 0"]), (b"\x09\x07\xc6\x0c\x00" + FIRST, ["no 19 0"]),
    (b"\x09\xc6\x07\x0c\x00" + FIRST[:-1], ["bad"]), (b"\x09\xc6\x07\x0c", ["bad"]), (b"\x09", ["bad"]),
    (b"\x09\xc6\x07\x0c\x00" + FIRST + b"\x0e\x00\x00\x00", ["at -315536452", "bad"]),
    (b"\x00\xc6\x07\x00\x00" b"\x09\xc6\x07\x0b\x00" + FIRST[:-1], ["bad", "bad"]))
# A telegram's leap date, and whether the base 1990 and the base 2000 take it.
LEAP_DATES = (((1989, 12, 31), False, False), ((1990, 1, 31), True, False),
              ((1999, 12, 31), True, False), ((2000, 1, 31), True, True), ((2089, 12, 31), True, True),
              ((2090, 1, 31), False, True), ((2099, 12, 31), False, True), ((2100, 1, 31), False, False))
# A minute being sent, and the code by which the base 1990 and the base 2000 refuse it, else 0.
SENT = (((1989, 12, 31, 23, 59), 16, 16), ((1990, 1, 1, 0, 0), 0, 16), ((1999, 12, 31, 23, 59), 0, 16),
        ((2000, 1, 1, 0, 0), 0, 0), ((2089, 12, 31, 22, 58), 0, 0), ((2089, 12, 31, 22, 59), 12, 0),
        ((2089, 12, 31, 23, 58), 12, 0), ((2089, 12, 31, 23, 59), 12, 0), ((2090, 1, 1, 0, 0), 16, 0),
        ((2099, 12, 31, 22, 58), 16, 0), ((2099, 12, 31, 22, 59), 16, 12), ((2100, 1, 1, 0, 0), 16, 16))


def said(reader: Union[FrameReader, MinuteReader], pulses: bytes) -> List[Tuple[int, object]]:
    """Where a pulse reader says something, and what."""
    spoken = ((at, reader.take(pulse)) for at, pulse in enumerate(pulses, 1))
    return [(at, answer) for at, answer in spoken if answer is not None]


def check_pulses(check: Checks) -> None:
    """The leap second of 30 June 1994 by pulse readers; by what is no base they say 19 there, and
    nothing where they say nothing."""
    first = datetime(1994, 7, 1)
    told = [local(first - MINUTE, 8, 59), local(first - MINUTE, 8, 60), local(first, 8)]
    frames = b"".join(bytes(raw_frame(reading)) for reading in told)
    named = [local(first - MINUTE, 8, summer=True, leap=True), local(first, 8, summer=True, leap=True)]
    minutes = b"\x02" + b"".join(bytes(raw_minute(reading, 9)) for reading in named)
    frame_ends, minute_ends = (100, 200, 300), (61, 122)
    for base, years, other in ((1990, 0, None), (2000, 100, Refusal(6, 42)),
                               (1999, 0, Refusal(19, 0)), (0, 0, Refusal(19, 0))):
        none = Refusal(19, 0) if base not in BASES else None
        due = [none or Told(reading._replace(year=1994 + years)) for reading in told]
        check.that(said(FrameReader(base), frames) == list(zip(frame_ends, due)), "frames by %d" % base)
        due = [other or Told(reading, 9) for reading in named]
        check.that(said(MinuteReader(base), minutes) == list(zip(minute_ends, due)),
                   "minutes by %d" % base)
        check.that(said(FrameReader(base), frames[:99] + b"\x00" * 50) == []
                   and said(MinuteReader(base), minutes[1:60]) == [], "nothing by %d" % base)


def check_telegrams(check: Checks) -> None:
    """What a hundred has and has not; and an evening of 1998 through the pulse reader of its base."""
    for leap, *taken in LEAP_DATES:
        for base, good in zip(BASES, taken):
            asked = ASKED._replace(leap_set=1, leap_year=leap[0], leap_month=leap[1], leap_day=leap[2])
            due = 60 if good else Refusal(9)
            check.that(made(asked, base)[0] == due, "leap date %s by %d" % (leap, base))
    for sent, *codes in SENT:
        for base, code in zip(BASES, codes):
            due = Refusal(code) if code else 60
            check.that(made(sent_at(datetime(*sent)), base)[0] == due, "sent %s by %d" % (sent, base))
    reader, lengths = MinuteReader(1990), []
    reader.take(2)
    for number in range(180):
        sent = datetime(1998, 12, 31, 22) + number * MINUTE
        asked = with_leap(date(1998, 12, 31), sent_at(sent, head=number))
        marks = marks_of(asked, 1990)
        lengths.append(len(marks))
        due = Told(local(sent + MINUTE, 4, leap=sent.hour == 23), number)
        check.that(said(reader, marks) == [(len(marks), due)], "telegram sent at %s" % sent)
    check.that(lengths == [60] * 119 + [61] + [60] * 60, "the long telegram of 1998")


def check_books(check: Checks) -> None:
    """Listings; the walk of what is no base, which refuses each whole body by it; the program's
    argument."""
    for base, given, lines in LISTINGS:
        text = "".join(line + "\n" for line in [HEADER] + lines)
        check.that(book.listing_text(base, given) == text, "listing by %d of %r" % (base, given[:40]))
    body = b"\x01" + raw_meinberg(NINETIES)
    broken = b"\x01" + bytes(32)
    for tail, end in ((b"\x09", [(99, 9, Refusal(14))]), (body[:20], [(99, 1, Refusal(13))]), (b"", [])):
        walked = list(book.records(1991, body + broken + body + tail))
        check.that(walked == [(at, 1, Refusal(19)) for at in (0, 33, 66)] + end, "walk to %r" % tail)
    for arguments, base in ARGUMENTS:
        check.that(book.base_of(arguments) == base, "arguments %r" % (arguments,))


def check_cases(check: Checks) -> None:
    """The header of a case; and that the stream asks every op at each base and at what is none."""
    for stream, lines in CASES:
        found = [answers.answer_line(*one) for one in answers.cases_of(stream)]
        check.that(found == lines, "lines of %r" % stream)
    check.that(reading_bytes(moment(1990, 1, 1, 0, 0, 0, 0)) == FIRST, "a reading's bytes")
    asked = {(op, base if base in BASES else 0)
             for op, base, _ in answers.cases_of(b"".join(case_bases.make()))}
    check.that(asked >= set(product(answers.LINES, (*BASES, 0))) - {(22, 2000), (23, 2000)},
               "ops and bases of the stream")


def check_base_runs(check: Checks) -> None:
    for part in (check_pulses, check_telegrams, check_books, check_cases):
        part(check)
