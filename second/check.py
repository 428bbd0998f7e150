"""Self tests: document 01's cases and its listing, round trips and untouched memory over all named
streams, and that every op gives exactly the refusal codes, each at exactly the places, that the
papers allow it."""

import random
import sys
from typing import Dict, Set, Tuple

import answers
import book
import case_frames
import case_random
import cases
import clock_string
import dcf77
import erlangen
import ieee1344
import meinberg
from bridge import bridge
from check_base_runs import check_base_runs
from check_bases import check_bases
from check_coasting import Case, check_bridged, check_coasting
from check_door import FILLED, check_door, check_string, check_written
from check_places import PLACES, Asked, asked_in, check_places, check_seen, refusals_in
from check_quarters import check_quarters
from check_telegrams import check_read_back, check_telegrams
from checks import Checks
from clock_string import ToldString
from pulse_readers import FrameReader
from reading import BASES, Reading, Refusal, Told, stamp, utc_minute

CASE_SIX = Reading(2024, 2, 29, 12, 34, 56, 4, False, False, False, 0)
CASE_SIX_ONES = [2, 3, 6, 8, 12, 15, 16, 21, 25, 36, 37, 52, 56, 64, 65, 75, 84, 85, 86, 87, 93,
                 94, 96]
CASE_EIGHT_ONES = [18, 20, 23, 25, 26, 28, 30, 33, 36, 39, 41, 44, 46, 52, 55, 58]
CASE_TWO = b"\x02D:31.12.16;T:6;U:23.59.60;  UA\x03"
SIXTY_STAMPED = {b"\x02D:29.02.24;T:4;U:23.59.60;  UA\x03": 762575225,
                 b"\x02D:01.03.24;T:5;U:00.59.60;   A\x03": 762575225,
                 b"\x02D:01.03.24;T:5;U:01.59.60;  SA\x03": 762575225,
                 b"\x02D:28.02.23;T:2;U:23.59.60;  UA\x03": 730952459,
                 b"\x02D:31.03.24;T:7;U:23.59.60;  U \x03": 765253656,
                 b"\x02D:30.04.24;T:2;U:23.59.60;  U \x03": 767845686}
SIXTY_REFUSED = (b"\x02D:28.02.24;T:3;U:23.59.60;  UA\x03", b"\x02D:29.02.24;T:4;U:23.59.60;   A\x03",
                 b"\x02D:31.03.24;T:7;U:23.59.60;  SA\x03")
WHOLE_READERS = {3: ieee1344.read, 4: dcf77.read}  # by their ops


def frame_of(reading: Reading) -> bytes:
    output = bytearray(ieee1344.LENGTH)
    assert ieee1344.write(2000, reading, output) == ieee1344.LENGTH
    return bytes(output)


def moment(year: int, month: int, day: int, hour: int, minute: int, second: int,
           offset: int) -> Reading:
    return Reading(year, month, day, hour, minute, second, offset, False, False, False, 0)


def check_dates(check: Checks) -> None:
    """Cases 1 to 5 and 9; all but the last and the largest stamp by either base."""
    for base in BASES:
        check.that(stamp(base, moment(2000, 1, 1, 0, 0, 0, 0)) == 0, "case 1")
        told = clock_string.read(base, CASE_TWO)
        check.that(isinstance(told, ToldString) and stamp(base, told.reading) == 536550209, "case 2")
        check.that(stamp(base, moment(2017, 1, 1, 0, 59, 60, 4)) == 536550209, "case 3, leap second")
        check.that(stamp(base, moment(2017, 1, 1, 0, 0, 0, 0)) == 536550210, "case 3, midnight")
        check.that(stamp(base, moment(2017, 1, 2, 0, 59, 60, 4)) == Refusal(9), "case 4")
        good = b"\x02D:29.02.24;T:4;U:12.34.56;    \x03"
        check.that(isinstance(clock_string.read(base, good), ToldString), "case 5, 2024")
        check.that(clock_string.read(base, good.replace(b"24;T", b"23;T")) == Refusal(16, 3),
                   "case 5, 2023")
    early = moment(2000, 1, 1, 0, 30, 0, 4)
    check.that(isinstance(ieee1344.read(2000, frame_of(early)), Told), "case 9, accepted")
    check.that(stamp(2000, early) == -1801, "case 9, stamp")
    check.that(stamp(2000, moment(2099, 12, 31, 23, 59, 60, 0)) == 3155796524, "largest stamp")


def check_month_ends(check: Checks) -> None:
    """L3: second 60 at the end of any UTC month, the bridge's pending bit and the long minute."""
    for string, value in SIXTY_STAMPED.items():
        told = clock_string.read(2000, string)
        check.that(isinstance(told, ToldString) and stamp(2000, told.reading) == value,
                   "accepted %r" % string)
    for string in SIXTY_REFUSED:
        check.that(clock_string.read(2000, string) == Refusal(9, 24), "refused %r" % string)
    for second, pending in (("00", 0), ("01", 1), ("59", 1), ("60", 0)):
        frame = bytearray(ieee1344.LENGTH)
        string = ("\x02D:30.04.24;T:2;U:23.59.%s;  UA\x03" % second).encode()
        check.that(bridge(2000, string, frame) == 100, "bridged at " + second)
        check.that(frame[60] == pending, "pending at " + second)
    first = moment(2024, 3, 1, 1, 0, 0, 4)._replace(leap=True)
    marks = bytearray(61)
    check.that(dcf77.write(2000, first, 0, marks) == 61, "1 March, written")
    check.that(dcf77.read(2000, bytes(marks)) == Told(first, 0)
               and stamp(2000, first) == 762575226, "1 March")
    check.that(dcf77.read(2000, bytes(marks[:59] + marks[60:])) == Refusal(9, 59),
               "1 March in 60 marks")


def check_frames(check: Checks) -> None:
    """Cases 6, 7, 8, 10 and 11."""
    frame = frame_of(CASE_SIX)
    check.that([place for place in range(100) if frame[place] == 1] == CASE_SIX_ONES, "case 6")
    check.that(ieee1344.read(2000, frame) == Told(CASE_SIX), "case 6, read")
    cleared = frame[:84] + b"\x00" + frame[85:]
    check.that(ieee1344.read(2000, cleared) == Refusal(7, 80), "case 7")
    minute = bytearray(60)
    check.that(dcf77.write(2000, CASE_SIX._replace(second=0), 0, minute) == 60, "case 8, length")
    check.that([place for place in range(60) if minute[place] == 1] == CASE_EIGHT_ONES, "case 8")
    check.that(minute[59] == 2, "case 8, gap")
    for offset, wanted in ((56, 100), (57, Refusal(8)), (-48, 100), (-49, Refusal(8))):
        answer = ieee1344.write(2000, CASE_SIX._replace(offset=offset), bytearray(100))
        check.that(answer == wanted, "case 10, offset %d" % offset)
    reader = FrameReader(2000)
    said = [(at, answer) for at, answer in enumerate(map(reader.take, frame + frame[1:]), 1)
            if answer is not None]
    check.that(said == [(100, Told(CASE_SIX)), (199, Told(CASE_SIX))], "case 11")


def check_layouts(check: Checks) -> None:
    """Every pulse has one field at most, the others are marks or always 0; lengths agree."""
    for fields in (ieee1344.FIELDS, dcf77.FIELDS):
        pulses = [pulse for field in fields.values() for pulse, _ in field]
        check.that(len(pulses) == len(set(pulses)), "a pulse in two fields")
    zeros = tuple(place for place in range(100) if ieee1344.ALLOWED[place] == {0})
    check.that(zeros == case_frames.ALWAYS_ZERO, "always-zero pulses")
    marks = tuple(place for place in range(100) if ieee1344.ALLOWED[place] == {2})
    check.that(marks == (0,) + tuple(range(9, 100, 10)), "position marks")
    named = {pulse for field in dcf77.FIELDS.values() for pulse, _ in field}
    check.that(named | {0, 28, 35, 58, 59} == set(range(60)), "marks of a minute")
    for module in (meinberg, erlangen, ieee1344):
        check.that(len(module.ALLOWED) == module.LENGTH == module.LARGEST_PLACE + 1, "a length")
    check.that(len(ieee1344.DIGITS) == 7 and len(dcf77.DIGITS) == 6, "digits that can exceed 9")


def check_listing(check: Checks) -> None:
    header = "at kind answer value place\n"
    for base in BASES:
        listed = book.listing_text(base, b"\x01" + CASE_TWO + b"\x09")
        check.that(listed == header + "0 1 ok 536550209 0\n33 9 no 14 0\n", "listing case")
        check.that(book.listing_text(base, b"") == header, "empty listing")
        check.that(book.listing_text(base, bytes(65537)) == header + "0 0 no 1 0\n", "too long a book")
        check.that(book.listing_text(base, bytes(65536)) == header + "0 0 no 14 0\n", "largest book")


def check_order(check: Checks) -> None:
    """A later UTC second has the larger stamp, equal ones the same."""
    dice = random.Random(5)
    stamped = []
    for _ in range(4000):
        reading = case_random.good_reading(dice)
        value = stamp(2000, reading)
        if isinstance(value, int):
            stamped.append(((utc_minute(reading), reading.second), value))
    stamped.sort()
    for (first, one), (second, two) in zip(stamped, stamped[1:]):
        check.that((one < two) == (first < second), "stamp order at %s" % (second,))


def check_read(check: Checks, asked_case: Case, line: str) -> None:
    """What is read, written back to a buffer one byte too long."""
    op, base, payload = asked_case
    if op == 1:
        check_string(check, base, payload, line)
    elif line.startswith("time"):
        told = WHOLE_READERS[op](base, payload)
        output = bytearray(FILLED * (len(payload) + 1))
        answers.WRITERS[op + 4](base, told.reading, told.beside, b"", output)
        check.that(output == payload + FILLED, "write back " + line)


def check_write(check: Checks, asked_case: Case, line: str) -> None:
    """What is written, read back; and the rest of the buffer is as it was."""
    op, base, payload = asked_case
    words = line.split()
    output = b"" if words[-1] == "-" else bytes.fromhex(words[-1])
    length = int(words[1]) if words[0] == "wrote" else 0
    check.that(output[length:] == FILLED * (len(output) - length), "untouched " + line)
    if op in (10, 16):
        check_bridged(check, asked_case, line)
    elif words[0] != "wrote":
        return
    elif op == 15:
        check_read_back(check, base, payload, output[:length])
    elif op in (5, 6):
        check_written(check, asked_case, output[:length])
    else:
        head = int.from_bytes(payload[12:14], "little") if op == 8 else None
        told = WHOLE_READERS[op - 4](base, output[:length])
        check.that(told == Told(answers.reading_of(payload), head), "read back " + line)


def check_round_trip(check: Checks, asked_case: Case, line: str) -> None:
    """What is read writes back to the same bytes; what is written reads back the same."""
    if asked_case[0] in (1, 3, 4):
        check_read(check, asked_case, line)
    elif asked_case[0] in (5, 6, 7, 8, 10, 15, 16):
        check_write(check, asked_case, line)


def check_changes(check: Checks, op: int, payload: bytes, line: str) -> None:
    """Every change is counted, refused as the op's reader may refuse, and no one-byte change of a
    good frame is accepted."""
    words = line.split()
    listed = [word.split("=")[1] for word in words[1:-2]]
    check.that(len(listed) + int(words[-1]) == 255 * len(payload), "count of changes")
    refused = [tuple(map(int, word.split("."))) for word in listed if word != "time"]
    places = PLACES[asked_in(op - 19, payload)]
    check.that(all(place in places.get(code, ()) for code, place in refused), "a change's refusal")
    if op == 22:
        check.that("time" not in listed, "a changed frame accepted")


def allowed(asked: Asked, line: str) -> bool:
    """Whether the papers allow each refusal of an answer line, its code and its place."""
    return all(place in PLACES[asked].get(code, ()) for code, place in refusals_in(asked[0], line))


def check_streams(check: Checks) -> None:
    """Runs every named stream and a random one; afterwards looks at the refusals that came."""
    seen: Dict[Asked, Set[Tuple[int, int]]] = {asked: set() for asked in PLACES}
    makers = {**cases.NAMED, "random": lambda: case_random.make(3, 4000)}
    for name, make in makers.items():
        stream = b"".join(make())
        check.that(b"".join(make()) == stream, "%s is not deterministic" % name)
        for asked_case in answers.cases_of(stream):
            op, _, payload = asked_case
            line = answers.answer_line(*asked_case)
            if line == answers.BAD:
                continue
            check_round_trip(check, asked_case, line)
            if op >= 20:
                check_changes(check, op, payload, line)
                continue
            asked = asked_in(op, payload)
            check.that(allowed(asked, line), "a strange refusal: " + line)
            if name != "random":
                seen[asked].update(refusals_in(op, line))
    check_seen(check, seen)


def main() -> None:
    check = Checks()
    for part in (check_dates, check_month_ends, check_frames, check_layouts, check_listing,
                 check_places, check_door, check_coasting, check_telegrams, check_quarters,
                 check_bases, check_base_runs, check_order, check_streams):
        part(check)
    for what in check.failed[:50]:
        print("failed: " + what)
    if check.failed:
        print("second: %d checks failed, %d passed" % (len(check.failed), check.passed))
        sys.exit(1)
    print("second: %d checks passed" % check.passed)


if __name__ == "__main__":
    main()
