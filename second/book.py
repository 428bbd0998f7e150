"""The record book: a kind byte and a body for each record, walked in order, and its listing. L12: the
walk takes the base once, and the listing program as its first argument."""

from typing import Iterator, List, NamedTuple, Sequence, Union

import clock_string
import dcf77
import erlangen
import ieee1344
import meinberg
from clock_string import ToldString
from reading import BASES, Refusal, Told, base_refusal, stamp

LARGEST_BOOK = 65536
BASE_WITHOUT_ARGUMENT = 2000
ARGUMENTS = {b"%d" % base: base for base in BASES}
NO_BASE = 0
HEADER = "at kind answer value place"
# kind -> (length of the body, reader of the body). The kind alone fixes the length, and so which of the
# two strings it is that the door reads.
KINDS = {
    1: (meinberg.LENGTH, clock_string.read),
    2: (erlangen.LENGTH, clock_string.read),
    3: (ieee1344.LENGTH, ieee1344.read),
    4: (dcf77.LENGTH, dcf77.read),
    5: (dcf77.LONG_LENGTH, dcf77.read),
}


class Record(NamedTuple):
    """Where its kind byte stands, the kind, and what was said of the body."""

    at: int
    kind: int
    answer: Union[Told, ToldString, Refusal]


def records(base: int, book: bytes) -> Iterator[Record]:
    """Walks the book; a refused body does not stop the walk, codes 13 and 14 do. The walk takes what is
    no base as it comes, and each body is refused by it."""
    at = 0
    while at < len(book):
        kind = book[at]
        if kind not in KINDS:
            yield Record(at, kind, Refusal(14))
            return
        length, read = KINDS[kind]
        if at + 1 + length > len(book):
            yield Record(at, kind, Refusal(13))
            return
        yield Record(at, kind, read(base, book[at + 1:at + 1 + length]))
        at += 1 + length


def line_of(base: int, record: Record) -> str:
    """A record's line of the listing."""
    answer = record.answer
    value = answer if isinstance(answer, Refusal) else stamp(base, answer.reading)
    if isinstance(value, Refusal):
        return "%d %d no %d %d" % (record.at, record.kind, value.code, value.place)
    return "%d %d ok %d 0" % (record.at, record.kind, value)


def listing_lines(base: int, book: bytes) -> List[str]:
    """The listing without its header; a book that is too long, and then what is no base, is a line
    alone."""
    refusal = Refusal(1) if len(book) > LARGEST_BOOK else base_refusal(base)
    if refusal is not None:
        return ["0 0 no %d %d" % refusal]
    return [line_of(base, record) for record in records(base, book)]


def listing_text(base: int, book: bytes) -> str:
    """The whole listing, as the listing program prints it."""
    return "".join(line + "\n" for line in [HEADER] + listing_lines(base, book))


def base_of(arguments: Sequence[bytes]) -> int:
    """The base that the listing program's first argument names, no base where it names none; the
    others are not looked at."""
    return ARGUMENTS.get(arguments[0], NO_BASE) if arguments else BASE_WITHOUT_ARGUMENT
