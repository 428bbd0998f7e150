"""The bridge: reads a clock string, whichever of the two it is, and writes the IEEE 1344 frame of its
reading. L7: a coasting clock looks failed there, unless the caller asks for the mark to be dropped.
L9: a string whose offset is an odd number of quarter hours has no frame."""

import enum
from typing import Union

import clock_string
import ieee1344
from clock_string import ToldString
from reading import FAILED, Reading, Refusal, in_leap_minute


class Coasting(enum.Enum):
    """What becomes of the coasting mark, for which a frame has no pulse."""

    WORSE = "quality 15"
    DROPPED = "nothing"


def bridged(told: ToldString, way: Coasting) -> Reading:
    """The string's reading with its announcements turned into the frame's pending bits, and with the
    quality that the mark leaves it."""
    reading = told.reading
    in_window = 1 <= reading.second <= 59
    return reading._replace(
        leap=bool(reading.leap) and in_window and in_leap_minute(reading),
        change=bool(reading.change) and in_window and reading.minute == 59,
        quality=FAILED if told.coasting and way is Coasting.WORSE else reading.quality)


def bridge_with(base: int, string: bytes, way: Coasting, output: bytearray) -> Union[int, Refusal]:
    """Output length first, then the string's own refusal, in which the base has its place, then the
    frame writer's, which can only be that it does not carry the offset; all whatever the way."""
    if len(output) < ieee1344.LENGTH:
        return Refusal(1)
    answer = clock_string.read(base, string)
    if isinstance(answer, Refusal):
        return answer
    return ieee1344.write(base, bridged(answer, way), output)


def bridge(base: int, string: bytes, output: bytearray) -> Union[int, Refusal]:
    """The bridge of one who names no way: a coasting clock looks worse."""
    return bridge_with(base, string, Coasting.WORSE, output)
