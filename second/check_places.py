"""Self tests of codes and places: literal inputs for every place of every format, for the order of
the codes and for the days of a bad month; and the table of the places at which each op, and of the
strings each length, gives each code, which the streams of cases are held against."""

from typing import Dict, Iterator, Sequence, Set, Tuple

import book
import clock_string
import dcf77
import erlangen
import ieee1344
import meinberg
from bridge import bridge
from case_minutes import BASE
from case_parts import (PLAIN, POSITION, mend_frame, mend_minute, raw_frame, raw_minute,
                        with_pulses)
from case_places import LONG
from checks import Checks
from pulse_readers import FrameReader, MinuteReader
from reading import Refusal, stamp

Table = Dict[int, Set[int]]
MEINBERG: Table = {2: set(range(32)), 15: {18, 21, 24}, 16: {3, 6, 14}, 6: {14}, 9: {24}}
ERLANGEN: Table = {2: set(range(68)), 15: {14, 17, 20}, 16: {1, 4, 11}, 6: {11}, 8: {24}, 9: {20}}
FRAME: Table = {2: set(range(100)), 3: {1, 10, 20, 30, 50}, 4: {75}, 15: {1, 10, 20}, 16: {30},
                7: {80}, 8: {64}, 9: {1}, 10: {61}}
MINUTE: Table = {2: set(range(61)), 3: {21, 29, 36, 45, 50}, 4: {28, 35, 58}, 15: {21, 29},
                 16: {36, 42, 45}, 6: {42}, 8: {17}, 9: {59, 60}}


def placeless(*codes: int) -> Table:
    return {code: {0} for code in codes}


def joined(*tables: Table) -> Table:
    """Every place that one of the tables has."""
    return {code: set().union(*(table.get(code, set()) for table in tables))
            for code in set().union(*tables)}


Asked = Tuple[int, int]
# What is asked (the op, and of a clock string its length, 0 for any that neither string has) -> code ->
# every place; each must occur in the named streams, and no other may. Where a byte is wrong (2), any
# place of the input, or of the position part, may be the lowest.
PLACES: Dict[Asked, Table] = {
    (1, 32): joined(MEINBERG, placeless(19)), (1, 68): joined(ERLANGEN, placeless(19)),
    (1, 0): placeless(1),
    (3, 0): joined(FRAME, placeless(1, 19)), (4, 0): joined(MINUTE, placeless(1, 19)),
    (5, 0): placeless(1, 19, 15, 16, 17, 8, 9, 11),
    (6, 0): joined(placeless(1, 19, 15, 16, 17, 8, 9, 11), {2: set(range(26))}),
    (7, 0): placeless(1, 19, 15, 16, 17, 8, 9, 11), (8, 0): placeless(1, 19, 15, 16, 17, 8, 9, 11),
    (9, 0): placeless(19, 15, 16, 17, 8, 9, 12),
    (10, 32): joined(MEINBERG, placeless(1, 19)), (10, 68): joined(ERLANGEN, placeless(1, 19, 11)),
    (10, 0): placeless(1), (11, 0): joined(FRAME, placeless(19)),
    (12, 0): joined(MINUTE, placeless(19)),
    (13, 0): joined(MEINBERG, ERLANGEN, FRAME, MINUTE, placeless(19, 12, 13, 14)),
    (14, 0): {}, (15, 0): placeless(1, 19, 18, 15, 16, 17, 9, 12)}
# A bridge refuses alike, whatever becomes of the coasting mark.
PLACES.update({(16, length): PLACES[10, length] for length in (32, 68, 0)})

# Date, weekday and time; code, its place in Meinberg's string, its place in Uni Erlangen's.
STRINGS = (
    ("31.13.24", 1, "12.34.56", 16, 6, 4), ("00.13.24", 1, "12.34.56", 16, 3, 1),
    ("29.02.23", 4, "12.34.56", 16, 3, 1), ("32.13.24", 1, "12.34.56", 16, 3, 1),
    ("31.00.24", 1, "12.34.56", 16, 6, 4), ("00.00.24", 1, "12.34.56", 16, 3, 1),
    ("31.04.24", 3, "12.34.56", 16, 3, 1), ("01.99.24", 4, "12.34.56", 16, 6, 4),
    ("29.02.24", 0, "12.34.56", 16, 14, 11), ("29.02.24", 8, "12.34.56", 16, 14, 11),
    ("29.02.24", 9, "12.34.56", 16, 14, 11), ("29.13.24", 0, "12.34.56", 16, 6, 4),
    ("30.02.24", 9, "12.34.56", 16, 3, 1), ("29.02.24", 5, "12.34.56", 6, 14, 11),
    ("29.02.24", 4, "24.34.56", 15, 18, 14), ("29.02.24", 4, "12.60.56", 15, 21, 17),
    ("29.02.24", 4, "12.34.61", 15, 24, 20), ("29.02.24", 4, "24.60.61", 15, 18, 14),
    ("29.02.24", 4, "12.60.61", 15, 21, 17), ("29.13.24", 4, "24.34.56", 15, 18, 14),
    ("00.02.24", 0, "12.34.99", 15, 24, 20), ("29.02.24", 5, "12.34.60", 6, 14, 11),
    ("31.04.24", 3, "12.34.60", 16, 3, 1), ("29.02.24", 4, "12.34.60", 9, 24, 20))
# Second, offset and letters of a Uni Erlangen string; code and place.
ENDS = (("56", "+01:20", " ", 8, 24), ("56", "-00:00", " ", 8, 24), ("56", "+14:15", " ", 8, 24),
        ("56", "-12:15", " ", 8, 24), ("56", "+01:20", "L", 8, 24), ("60", "+01:31", "L", 8, 24),
        ("56", "+01:00", "L", 9, 20), ("60", "+01:00", " ", 9, 20), ("60", "+01:00", "L", 9, 20),
        ("56", "+01:15", "L", 9, 20), ("60", "+01:15", " ", 9, 20), ("60", "+01:15", "L", 9, 20))
# Field values of a frame, its parity mended; code and place.
FRAMES = (({"second": 61}, 15, 1), ({"minute": 60}, 15, 10), ({"hour": 24}, 15, 20),
          ({"second": 61, "hour": 25}, 15, 1), ({"minute": 60, "hour": 24}, 15, 10),
          ({"hour": 24, "day_of_year": 0}, 15, 20), ({"day_of_year": 0}, 16, 30),
          ({"day_of_year": 367}, 16, 30), ({"year": 23, "day_of_year": 366}, 16, 30),
          ({"second_of_day": 1}, 7, 80), ({"second_of_day": 1, "day_of_year": 0}, 16, 30),
          ({"minus": 1, "offset_hours": 0}, 8, 64), ({"minus": 0, "offset_hours": 13}, 8, 64),
          ({"minus": 1, "offset_hours": 14, "offset_half_hour": 1}, 8, 64),
          ({"second": 60}, 9, 1), ({"second": 60, "deletion": 1}, 9, 1), ({"deletion": 1}, 10, 61))
# First pulses of digits over nine; the place.
FRAME_DIGITS = (((1,), 1), ((10,), 10), ((20,), 20), ((30,), 30), ((35,), 30), ((50,), 50),
                ((55,), 50), ((55, 35), 30), ((50, 20), 20), ((10, 1), 1))
# The same of a minute that is due in 60 marks.
MINUTES = (({"minute": 60}, 15, 21), ({"hour": 24}, 15, 29), ({"minute": 60, "hour": 24}, 15, 21),
           ({"hour": 24, "day": 0}, 15, 29), ({"day": 0}, 16, 36), ({"day": 30}, 16, 36),
           ({"day": 31, "month": 13}, 16, 45), ({"day": 0, "month": 13}, 16, 36),
           ({"day": 32, "month": 13}, 16, 36), ({"day": 31, "month": 0}, 16, 45),
           ({"year": 23}, 16, 36), ({"weekday": 0}, 16, 42), ({"weekday": 0, "month": 13}, 16, 42),
           ({"weekday": 0, "day": 32}, 16, 36), ({"weekday": 5}, 6, 42),
           ({"summer_zone": 1}, 8, 17), ({"winter_zone": 0}, 8, 17),
           ({"summer_zone": 1, "weekday": 5}, 6, 42), ({"length": 61}, 9, 60),
           ({"length": 61, "winter_zone": 0}, 8, 17))
MINUTE_DIGITS = (((21,), 21), ((29,), 29), ((36,), 36), ((45,), 45), ((50,), 50), ((54,), 50),
                 ((54, 45), 45), ((50, 36), 36), ((29, 21), 21))
# Wrong parities; the place.
PARITIES = (((28,), 28), ((35,), 35), ((58,), 58), ((28, 35), 28), ((28, 58), 28), ((35, 58), 35),
            ((28, 35, 58), 28))
# Faults of a reading in the order of their codes; each is given although all later ones apply too.
ORDER = ((15, {"hour": 24}), (16, {"month": 13}), (17, {"quality": 16}), (8, {"offset": 57}),
         (9, {"second": 60}))
# A fault beside a head too large, and the code.
HEAD_ORDER = (({}, 17), ({"minute": 60}, 15), ({"day": 0}, 16), ({"quality": 16}, 17),
              ({"offset": 57}, 17), ({"second": 60}, 17), ({"second": 1}, 17))


def check_refusal(check: Checks, kind: int, body: bytes, due: Tuple[int, int]) -> None:
    """A refusal as the reader gives it, a book's listing, the bridge and the pulse readers; a refused
    string has no position part."""
    body = bytes(body)
    name = "%d %r" % (kind, body)
    check.that(book.KINDS[kind][1](2000, body) == due, "place " + name)
    listed = book.listing_lines(2000, bytes((kind,)) + body)
    check.that(listed == ["0 %d no %d %d" % ((kind,) + due)], "listed " + name)
    if kind in (1, 2):
        frame = bytearray(100)
        check.that(bridge(2000, body, frame) == due and frame == bytearray(100), "bridged " + name)
        check.that(clock_string.position_part(2000, body) == b"", "part " + name)
    else:
        reader = FrameReader(2000) if kind == 3 else MinuteReader(2000)
        said = [reader.take(pulse) for pulse in (body if kind == 3 else b"\x02" + body)]
        check.that(said[-1] == due and not any(said[:-1]), "said " + name)


def over_nine(pulses: bytes, starts: Sequence[int]) -> bytearray:
    """The pulses with digits of ten and more."""
    return with_pulses(pulses, [start + bit for start in starts for bit in (1, 3)], 1)


def check_strings(check: Checks) -> None:
    text = "\x02%s; %d; %s; %s;       %s; " + POSITION.decode() + "\x03"
    for date, weekday, time, code, place, long_place in STRINGS:
        string = "\x02D:%s;T:%d;U:%s;    \x03" % (date, weekday, time)
        check_refusal(check, 1, string.encode(), (code, place))
        letter = "L" if time.endswith("60") else " "
        string = text % (date, weekday, time.replace(".", ":"), "+01:00", letter)
        check_refusal(check, 2, string.encode(), (code, long_place))
    for second, offset, letter, code, place in ENDS:
        string = text % ("29.02.24", 4, "12:34:" + second, offset, letter)
        check_refusal(check, 2, string.encode(), (code, place))


def check_frames(check: Checks) -> None:
    frame = raw_frame()
    for changed, code, place in FRAMES:
        check_refusal(check, 3, raw_frame(**changed), (code, place))
    for starts, place in FRAME_DIGITS:
        check_refusal(check, 3, mend_frame(over_nine(frame, starts)), (3, place))
    check_refusal(check, 3, with_pulses(frame, (75,), 1 - frame[75]), (4, 75))
    check_refusal(check, 3, with_pulses(raw_frame(deletion=1), (75,), frame[75]), (4, 75))


def check_minutes(check: Checks) -> None:
    minute = raw_minute()
    for changed, code, place in MINUTES:
        marks = raw_minute(PLAIN, 0, **changed)
        check_refusal(check, 5 if len(marks) == 61 else 4, marks, (code, place))
    for starts, place in MINUTE_DIGITS:
        check_refusal(check, 4, mend_minute(over_nine(minute, starts)), (3, place))
    for wrong, place in PARITIES:
        marks = bytearray(minute)
        for parity in wrong:
            marks[parity] ^= 1
        check_refusal(check, 4, marks, (4, place))
    check_refusal(check, 4, raw_minute(LONG, 0, 60), (9, 59))


def check_writers(check: Checks) -> None:
    """The order of the codes, place 0 and an untouched buffer; a head too large is 17 too."""
    announced = PLAIN._replace(leap=True, change=True)  # which Meinberg's string does not carry
    check.that(meinberg.write(2000, announced, False, bytearray(32)) == (11, 0), "not carried")
    for number, (code, _) in enumerate(ORDER):
        faults = {name: value for _, fault in ORDER[number:] for name, value in fault.items()}
        reading, output = announced._replace(**faults), bytearray(128)
        answers = [meinberg.write(2000, reading, False, output), ieee1344.write(2000, reading, output),
                   erlangen.write(2000, reading, False, POSITION, output),
                   dcf77.write(2000, reading, 0, output), stamp(2000, reading)]
        check.that(answers == [Refusal(code, 0)] * 5, "writers by %d" % code)
        check.that(output == bytearray(128), "a buffer touched by %d" % code)
    for fault, code in HEAD_ORDER:
        refusal = dcf77.write(2000, BASE._replace(**fault), 32768, bytearray(61))
        check.that(refusal == (code, 0), "a head too large with %s" % fault)


def asked_in(op: int, payload: bytes) -> Asked:
    """What a case asks, as the table of places has it."""
    strings = {1: payload, 10: payload[1:], 16: payload[2:]}
    length = len(strings.get(op, b""))
    return op, length if (op, length) in PLACES else 0


def refusals_in(op: int, line: str) -> Iterator[Tuple[int, int]]:
    """The refusals of an answer line, each its code and place."""
    if op == 13:
        for record in line.split("|"):
            words = record.split()
            if len(words) == 5 and words[2] == "no":
                yield int(words[3]), int(words[4])
    elif op in (11, 12):
        for word in line.split()[1:]:
            parts = word.split(":")[1].split(",")
            if parts[0] == "no":
                yield int(parts[1]), int(parts[2])
    elif line.startswith("no "):
        words = line.split()
        yield int(words[1]), int(words[2])


def check_seen(check: Checks, seen: Dict[Asked, Set[Tuple[int, int]]]) -> None:
    """What came of the named streams: every code of what was asked at every place of it, and no
    other."""
    for asked, table in PLACES.items():
        due = {(code, place) for code, places in table.items() for place in places if code != 2}
        came = {refusal for refusal in seen[asked] if refusal[0] != 2}
        check.that(came == due, "refusals of op %d, length %d: %s" % (*asked, sorted(came ^ due)))
        check.that((2 in table) == (came != seen[asked]), "wrong bytes of op %d, length %d" % asked)
    codes = {code for refusals in seen.values() for code, _ in refusals}
    check.that(codes == {1, 2, 3, 4, *range(6, 20)}, "every code of the papers, and not 5")


def check_places(check: Checks) -> None:
    for part in (check_strings, check_frames, check_minutes, check_writers):
        part(check)
