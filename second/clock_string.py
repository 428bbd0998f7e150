"""The one door for both clock strings: the length says which of the two a string is, and the answer
names it. The command, the bridge and the book all read strings here."""

from typing import NamedTuple, Union

import erlangen
import meinberg
from reading import Reading, Refusal

MEINBERG = "meinberg"
ERLANGEN = "erlangen"
# Length -> which string has it, and what reads that one
STRINGS = {meinberg.LENGTH: (MEINBERG, meinberg.read), erlangen.LENGTH: (ERLANGEN, erlangen.read)}


class ToldString(NamedTuple):
    """An accepted string: which of the two it is, its reading and its coasting mark."""

    kind: str
    reading: Reading
    coasting: bool


def read(base: int, data: bytes) -> Union[ToldString, Refusal]:
    """What the string of this length tells, or its refusal; any other length is refused by 1, whatever
    the base."""
    if len(data) not in STRINGS:
        return Refusal(1)
    kind, read_format = STRINGS[len(data)]
    answer = read_format(base, data)
    if isinstance(answer, Refusal):
        return answer
    return ToldString(kind, answer.reading, answer.beside)


def position_part(base: int, data: bytes) -> bytes:
    """Bytes 41..66 of an accepted Uni Erlangen string; empty for a Meinberg string, which has no
    such part, and for a refused one."""
    answer = read(base, data)
    if isinstance(answer, Refusal) or answer.kind != ERLANGEN:
        return b""
    return bytes(data[erlangen.POSITION_START:erlangen.POSITION_START + erlangen.POSITION_LENGTH])
