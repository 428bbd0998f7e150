"""The two pulse-by-pulse readers, straight from the letter's third demand: each keeps the whole
stream, and after every pulse looks at its last hundred, or at the marks since the gap before. A reader
is started with any base; where it is none, what has the outline is refused by 19."""

import re
from typing import Optional

import dcf77
import ieee1344
from reading import Answer

GAP = 2
# A mark at 0, 9, 19 .. 99 and 0 or 1 at every other place.
FRAME_OUTLINE = re.compile(rb"\x02[\x00\x01]{8}(?:\x02[\x00\x01]{9}){9}\x02")
# 59 or 60 marks of 0 or 1.
STRETCH_OUTLINE = re.compile(rb"[\x00\x01]{59,60}")


class FrameReader:
    """IEEE 1344: what whole-frame reading says of the last hundred pulses."""

    def __init__(self, base: int) -> None:
        self.base = base
        self.stream = bytearray()

    def take(self, pulse: int) -> Optional[Answer]:
        self.stream.append(pulse)
        end = len(self.stream)
        start = end - ieee1344.LENGTH
        if start < 0 or FRAME_OUTLINE.fullmatch(self.stream, start, end) is None:
            return None
        return ieee1344.read(self.base, bytes(self.stream[start:end]))


class MinuteReader:
    """DCF77: at a gap, what whole-minute reading says of the marks since the gap before."""

    def __init__(self, base: int) -> None:
        self.base = base
        self.stream = bytearray()

    def take(self, pulse: int) -> Optional[Answer]:
        self.stream.append(pulse)
        if pulse != GAP:
            return None
        closing = len(self.stream) - 1
        opening = self.stream.rfind(GAP, 0, closing)
        if opening < 0 or STRETCH_OUTLINE.fullmatch(self.stream, opening + 1, closing) is None:
            return None
        return dcf77.read(self.base, bytes(self.stream[opening + 1:]))
