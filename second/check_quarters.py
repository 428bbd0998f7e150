"""Self tests of offsets in quarter hours: what the request says in its own numbers and texts; literal
lines of a plant at UTC+5:45, whose strings are read, stamped, listed and written, and only have no
frame; every offset written and read back; and which of them a frame carries."""

from datetime import datetime, timedelta
from typing import Dict, List, Tuple

import answers
import clock_string
import dcf77
import erlangen
import ieee1344
import meinberg
from bridge import Coasting, bridge, bridge_with
from case_parts import POSITION
from check_door import FILLED
from check_places import ORDER
from checks import Checks
from clock_string import ToldString
from reading import Reading, Refusal, Told, stamp

OFFSETS = range(-48, 57)
EVEN = range(-48, 57, 2)
NUMBERS = range(-128, 128)
GOOD = {"+00:00": 0, "+00:15": 1, "-00:15": -1, "+00:30": 2, "-00:30": -2, "+00:45": 3, "+01:00": 4,
        "+02:00": 8, "-03:30": -14, "+05:30": 22, "+05:45": 23, "+08:45": 35, "-09:30": -38,
        "+12:45": 51, "+13:45": 55, "+14:00": 56, "-11:45": -47, "-12:00": -48}
BAD = ("-00:00", "+14:15", "+14:30", "-12:15", "-12:30", "+05:20", "+05:50", "+05:60", "+05:75",
       "+05:14", "+05:16", "+05:44", "+05:46", "+00:01", "-00:07", "+15:00", "-13:00", "+99:45")
# A Uni Erlangen string but for date, weekday, time, offset and the last letter.
STRING = "\x02%s; %d; %s; %s;       %s; " + POSITION.decode() + "\x03"
PLANT = (STRING % ("29.02.24", 4, "12:34:56", "+05:45", " ")).encode()
PLANT_READING = Reading(2024, 2, 29, 12, 34, 56, 23, False, False, False, 0)
PLANT_BYTES = bytes((0xe8, 0x07, 2, 29, 12, 34, 56, 23, 0, 0, 0, 0))
LEAP_SECOND = (STRING % ("01.01.17", 7, "05:44:60", "+05:45", "L")).encode()
TOO_LATE = (STRING % ("01.01.17", 7, "05:45:60", "+05:45", "L")).encode()
AS_IT_WAS = {room: "no 11 0 " + "a5" * room for room in (32, 60, 100)}
# Op, payload, line.
LINES = (
    (1, PLANT, "erlangen 2024 2 29 12 34 56 23 0 0 0 0 0 part " + POSITION.hex()),
    (9, PLANT_BYTES, "at 762513421"),
    (13, b"\x02" + PLANT, "at kind answer value place|0 2 ok 762513421 0|"),
    (6, PLANT_BYTES + b"\x00\x00\x44" + POSITION, "wrote 68 " + PLANT.hex()),
    (5, PLANT_BYTES + b"\x00\x00\x20", AS_IT_WAS[32]),
    (7, PLANT_BYTES + b"\x00\x00\x64", AS_IT_WAS[100]),
    (8, PLANT_BYTES[:6] + b"\x00" + PLANT_BYTES[7:] + b"\x00\x00\x3c", AS_IT_WAS[60]),
    (10, b"\x64" + PLANT, AS_IT_WAS[100]),
    (16, b"\x64\x01" + PLANT, AS_IT_WAS[100]), (16, b"\x64\x02" + PLANT, AS_IT_WAS[100]),
    (10, b"\x02" + PLANT, "no 1 0 a5a5"),
    (10, b"\x64" + PLANT.replace(b"12:34", b"24:34"), "no 15 14 " + "a5" * 100),
    (10, b"\x64" + PLANT[:-1] + b"*", "no 2 67 " + "a5" * 100),
    (1, LEAP_SECOND, "erlangen 2017 1 1 5 44 60 23 0 0 0 0 0 part " + POSITION.hex()),
    (13, b"\x02" + LEAP_SECOND, "at kind answer value place|0 2 ok 536550209 0|"),
    (10, b"\x64" + LEAP_SECOND, AS_IT_WAS[100]),
    (1, TOO_LATE, "no 9 20 part -"), (10, b"\x64" + TOO_LATE, "no 9 20 " + "a5" * 100))
# Local time and offset, and the stamp; each three are successive seconds.
STAMPS = (
    ((2000, 1, 1, 5, 44, 59, 23), -2), ((2000, 1, 1, 5, 44, 60, 23), -1),
    ((2000, 1, 1, 5, 45, 0, 23), 0),
    ((2099, 12, 31, 14, 44, 59, -37), 3155796523), ((2099, 12, 31, 14, 44, 60, -37), 3155796524),
    ((2099, 12, 31, 14, 45, 0, -37), Refusal(12)),
    ((2017, 1, 1, 5, 44, 59, 23), 536550208), ((2017, 1, 1, 5, 44, 60, 23), 536550209),
    ((2017, 1, 1, 5, 45, 0, 23), 536550210))
# Zone letter of a Meinberg string -> offset and summer; what marks 17 and 18 of a minute are, likewise.
MEINBERG_ZONES = {"U": (0, False), " ": (4, False), "S": (8, True)}
MINUTE_ZONES = {(0, 1): (4, False), (1, 0): (8, True)}
# Offset -> which of the pulses 64 to 70 are ones: the sign, the hours, the half hour.
PULSES: Dict[int, List[int]] = {
    0: [], 2: [64, 70], -2: [70], 4: [64, 65], -4: [65], 22: [64, 65, 67, 70], -38: [65, 68, 70],
    56: [64, 66, 67, 68], -48: [67, 68]}


def check_lines(check: Checks) -> None:
    for op, payload, line in LINES:
        check.that(answers.answer_line(op, 2000, payload) == line, "op %d of %r" % (op, payload))


def check_texts(check: Checks) -> None:
    """Offsets that a string can say, and those that are refused at the sign."""
    for text, offset in GOOD.items():
        string = PLANT.replace(b"+05:45", text.encode())
        told = ToldString("erlangen", PLANT_READING._replace(offset=offset), False)
        check.that(clock_string.read(2000, string) == told, "said " + text)
    for text in BAD:
        string, frame = PLANT.replace(b"+05:45", text.encode()), bytearray(FILLED * 100)
        check.that(clock_string.read(2000, string) == Refusal(8, 24), "refused " + text)
        check.that(bridge(2000, string, frame) == (8, 24) and frame == FILLED * 100, "bridged " + text)


def check_stamps(check: Checks) -> None:
    """Literal ones; and every zone gives one moment the same stamp."""
    for (*local, offset), due in STAMPS:
        check.that(stamp(2000, Reading(*local, offset, False, False, False, 0)) == due,
                   "stamp of %s at %d" % (local, offset))
    for offset in OFFSETS:
        at = datetime(2024, 2, 29, 6, 49) + timedelta(minutes=15 * offset)
        reading = Reading(*at.timetuple()[:5], 56, offset, False, False, False, 0)
        check.that(stamp(2000, reading) == 762513421, "the plant's moment at %d" % offset)


def check_zones(check: Checks) -> None:
    """The zones that Meinberg's string and DCF77 have, and no other."""
    for letter, zone in MEINBERG_ZONES.items():
        told = clock_string.read(2000, b"\x02D:29.02.24;T:4;U:12.34.56;  %s \x03" % letter.encode())
        check.that((told.reading.offset, told.reading.summer) == zone, "zone letter %r" % letter)
    carried: Dict[str, List[Tuple[int, bool]]] = {"meinberg": [], "dcf77": []}
    for offset in NUMBERS:
        for summer in (False, True):
            reading = PLANT_READING._replace(offset=offset, summer=summer, second=0)
            marks = bytearray(60)
            if meinberg.write(2000, reading, False, bytearray(32)) == 32:
                carried["meinberg"].append((offset, summer))
            if dcf77.write(2000, reading, 0, marks) == 60:
                carried["dcf77"].append((offset, summer))
                check.that(MINUTE_ZONES[marks[17], marks[18]] == (offset, summer)
                           and dcf77.read(2000, bytes(marks)) == Told(reading, 0),
                           "minute at %d" % offset)
    check.that(carried["meinberg"] == list(MEINBERG_ZONES.values()), "zones of a Meinberg string")
    check.that(carried["dcf77"] == list(MINUTE_ZONES.values()), "zones of a minute")


def check_written(check: Checks) -> None:
    """Every number at the writers that take any zone: 105 in a string, the even ones in a frame, which
    refuses the odd by 11, and by 8 what is out of range, odd or even."""
    for offset in NUMBERS:
        reading, string, frame = PLANT_READING._replace(offset=offset), bytearray(68), bytearray(100)
        in_string = erlangen.write(2000, reading, False, POSITION, string)
        in_frame = ieee1344.write(2000, reading, frame)
        at = "at %d" % offset
        if offset not in OFFSETS:
            check.that(in_string == in_frame == stamp(2000, reading) == (8, 0), "out of range " + at)
            continue
        text = "%s%02d:%02d" % ("-" if offset < 0 else "+", *divmod(15 * abs(offset), 60))
        check.that(in_string == 68 and string[24:30] == text.encode(), "text " + at)
        told = clock_string.read(2000, bytes(string))
        check.that(told == ("erlangen", reading, False), "string " + at)
        if offset in EVEN:
            check.that(in_frame == 100 and ieee1344.read(2000, bytes(frame)) == Told(reading),
                       "frame " + at)
        else:
            check.that(in_frame == (11, 0) and frame == bytes(100), "no frame " + at)
    for offset, ones in PULSES.items():
        frame = bytearray(100)
        ieee1344.write(2000, PLANT_READING._replace(offset=offset), frame)
        said = [place for place in range(64, 71) if frame[place] == 1]
        check.that(said == ones, "pulses at %d" % offset)


def check_bridge(check: Checks) -> None:
    """Strings of every offset, with the coasting mark and without: the even ones have a frame, the odd
    ones have none, whatever becomes of the mark."""
    for offset in OFFSETS:
        reading = PLANT_READING._replace(offset=offset)
        for coasting in (False, True):
            string = bytearray(68)
            erlangen.write(2000, reading, coasting, POSITION, string)
            for way in Coasting:
                frame = bytearray(FILLED * 100)
                answer = bridge_with(2000, bytes(string), way, frame)
                quality = 15 if coasting and way is Coasting.WORSE else 0
                if offset in EVEN:
                    told = ieee1344.read(2000, bytes(frame))
                    due = answer == 100 and told == Told(reading._replace(quality=quality))
                else:
                    due = answer == (11, 0) and frame == FILLED * 100
                check.that(due, "bridge at %d, %s" % (offset, way))


def check_order(check: Checks) -> None:
    """At the frame's writer each code is given although all later ones apply too, and 11 is last."""
    faults = [fault for _, fault in ORDER]
    for number, (code, _) in enumerate((*ORDER, (11, {}))):
        wrong = {name: value for fault in faults[number:] for name, value in fault.items()}
        reading = PLANT_READING._replace(**wrong)
        for room, due in ((99, 1), (100, code)):
            frame = bytearray(FILLED * room)
            check.that(ieee1344.write(2000, reading, frame) == (due, 0) and frame == FILLED * room,
                       "frame's writer by %d, room %d" % (code, room))


def check_quarters(check: Checks) -> None:
    for part in (check_lines, check_texts, check_stamps, check_zones, check_written, check_bridge,
                 check_order):
        part(check)
