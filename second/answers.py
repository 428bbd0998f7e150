"""The command: reads cases (op, base, length, payload) from standard input and prints a line for each,
to be compared with the lines the proved library gives for the same cases."""

import struct
import sys
from typing import Callable, Iterator, Tuple, Union

import bridge
import clock_string
import dcf77
import erlangen
import ieee1344
import meinberg
import published
import pulse_readers
import telegram
from book import listing_text
from clock_string import ToldString
from reading import Reading, Refusal, Told, stamp

HEADER = struct.Struct("<BHH")  # of a case: op, base, length of the payload
FILLING = 0xA5
READING_BYTES = 12
WRITER_BYTES = 15
TELEGRAM_BYTES = 20
BAD = "bad"
CUT_OFF = (0, 0, b"")  # an op that is none
# Number in a case -> what becomes of the coasting mark
WAYS = {1: bridge.Coasting.WORSE, 2: bridge.Coasting.DROPPED}


def time_words(first: str, reading: Reading, beside: Union[bool, int, None]) -> list:
    """The first word, and the reading with what stands beside it as numbers."""
    numbers = [*reading] if beside is None else [*reading, beside]
    return [first] + [str(int(value)) for value in numbers]


def words_of(answer: Union[Told, ToldString, Refusal]) -> list:
    """A reader's answer as words: time, or the string's kind, and its fields; or no, code and place."""
    if isinstance(answer, Refusal):
        return ["no", str(answer.code), str(answer.place)]
    if isinstance(answer, ToldString):
        return time_words(answer.kind, answer.reading, answer.coasting)
    return time_words("time", answer.reading, answer.beside)


def hexadecimal(data: bytes) -> str:
    return data.hex() or "-"


def reading_of(payload: bytes) -> Reading:
    """The reading in the first twelve bytes; a flag is set by any byte but 0."""
    (year, month, day, hour, minute, second, offset, summer, leap, change,
     quality) = struct.unpack_from("<HBBBBBbBBBB", payload)
    return Reading(year, month, day, hour, minute, second, offset,
                   bool(summer), bool(leap), bool(change), quality)


def read_line(read: Callable, base: int, payload: bytes) -> str:
    return " ".join(words_of(read(base, payload)))


def string_line(base: int, payload: bytes) -> str:
    """What is said of a clock string, and in every case its position part."""
    return "%s part %s" % (read_line(clock_string.read, base, payload),
                           hexadecimal(clock_string.position_part(base, payload)))


def written_line(answer: Union[int, Refusal], output: bytes) -> str:
    if isinstance(answer, Refusal):
        return "no %d %d %s" % (answer.code, answer.place, hexadecimal(output))
    return "wrote %d %s" % (answer, hexadecimal(output))


def write_line(write: Callable, base: int, payload: bytes) -> str:
    """Asks a writer, given as a function of base, reading, beside, rest of the payload and output."""
    if len(payload) < WRITER_BYTES:
        return BAD
    beside, room = struct.unpack_from("<HB", payload, READING_BYTES)
    output = bytearray([FILLING]) * room
    answer = write(base, reading_of(payload), beside, payload[WRITER_BYTES:], output)
    return written_line(answer, output)


def telegram_parts(payload: bytes) -> tuple:
    """What a telegram is made of: rule, leap second, minute being sent, head, and the room."""
    numbers = struct.unpack_from("<6BH4BBH2BHB", payload)
    rule = telegram.Rule(telegram.SetDay(*numbers[0:3]), telegram.SetDay(*numbers[3:6]))
    leap = numbers[12:15] if numbers[11] else None
    return rule, leap, telegram.Sent(*numbers[6:11]), numbers[15], numbers[16]


def telegram_line(base: int, payload: bytes) -> str:
    if len(payload) < TELEGRAM_BYTES:
        return BAD
    *asked, room = telegram_parts(payload)
    output = bytearray([FILLING]) * room
    return written_line(telegram.write(base, *asked, output), output)


def stamp_line(base: int, payload: bytes) -> str:
    if len(payload) < READING_BYTES:
        return BAD
    value = stamp(base, reading_of(payload))
    if isinstance(value, Refusal):
        return "no %d %d" % (value.code, value.place)
    return "at %d" % value


def bridge_line(base: int, payload: bytes) -> str:
    if not payload:
        return BAD
    output = bytearray([FILLING]) * payload[0]
    return written_line(bridge.bridge(base, payload[1:], output), output)


def bridge_with_line(base: int, payload: bytes) -> str:
    if len(payload) < 2 or payload[1] not in WAYS:
        return BAD
    output = bytearray([FILLING]) * payload[0]
    answer = bridge.bridge_with(base, payload[2:], WAYS[payload[1]], output)
    return written_line(answer, output)


def said_line(reader, payload: bytes) -> str:
    """Feeds a fresh reader; what it said, with the count of pulses at which it said it."""
    parts = ["said"]
    for at, pulse in enumerate(payload, 1):
        answer = reader.take(pulse)
        if answer is not None:
            parts.append("%d:%s" % (at, ",".join(words_of(answer))))
    return " ".join(parts)


def changes_line(read: Callable, base: int, payload: bytes) -> str:
    """Every one-byte change of the payload; those refused by 2 at their place are only counted."""
    parts = ["changes"]
    others = 0
    changed = bytearray(payload)
    for place, original in enumerate(payload):
        for byte in range(256):
            if byte == original:
                continue
            changed[place] = byte
            answer = read(base, changed)
            if answer == (2, place):
                others += 1
            elif isinstance(answer, Refusal):
                parts.append("%d.%d=%d.%d" % (place, byte, answer.code, answer.place))
            else:
                parts.append("%d.%d=time" % (place, byte))
        changed[place] = original
    return "%s others %d" % (" ".join(parts), others)


WRITERS = {
    5: lambda base, reading, beside, _, output: meinberg.write(base, reading, beside != 0, output),
    6: lambda base, reading, beside, rest, output: erlangen.write(base, reading, beside != 0, rest,
                                                                  output),
    7: lambda base, reading, _, __, output: ieee1344.write(base, reading, output),
    8: lambda base, reading, beside, _, output: dcf77.write(base, reading, beside, output),
}

LINES = {
    1: string_line,
    3: lambda base, payload: read_line(ieee1344.read, base, payload),
    4: lambda base, payload: read_line(dcf77.read, base, payload),
    5: lambda base, payload: write_line(WRITERS[5], base, payload),
    6: lambda base, payload: write_line(WRITERS[6], base, payload),
    7: lambda base, payload: write_line(WRITERS[7], base, payload),
    8: lambda base, payload: write_line(WRITERS[8], base, payload),
    9: stamp_line,
    10: bridge_line,
    11: lambda base, payload: said_line(pulse_readers.FrameReader(base), payload),
    12: lambda base, payload: said_line(pulse_readers.MinuteReader(base), payload),
    13: lambda base, payload: listing_text(base, payload).replace("\n", "|"),
    14: lambda base, payload: published.table_line(),
    15: telegram_line,
    16: bridge_with_line,
    20: lambda base, payload: changes_line(clock_string.read, base, payload),
    22: lambda base, payload: changes_line(ieee1344.read, base, payload),
    23: lambda base, payload: changes_line(dcf77.read, base, payload),
}


def answer_line(op: int, base: int, payload: bytes) -> str:
    line = LINES.get(op)
    return BAD if line is None else line(base, payload)


def cases_of(stream: bytes) -> Iterator[Tuple[int, int, bytes]]:
    """The cases of a stream; one that is cut off at the end is bad."""
    at = 0
    while at < len(stream):
        start = at + HEADER.size
        if start > len(stream):
            yield CUT_OFF
            return
        op, base, length = HEADER.unpack_from(stream, at)
        at = start + length
        if at > len(stream):
            yield CUT_OFF
            return
        yield op, base, stream[start:at]


def main() -> None:
    write = sys.stdout.write
    for case in cases_of(sys.stdin.buffer.read()):
        write(answer_line(*case) + "\n")


if __name__ == "__main__":
    main()
