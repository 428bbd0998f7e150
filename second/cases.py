"""The command that writes a named, deterministic stream of cases to standard output.
Use: cases.py NAME, or cases.py random SEED COUNT."""

import sys
from typing import Iterator

import case_bases
import case_coasting
import case_frames
import case_minutes
import case_months
import case_others
import case_places
import case_quarters
import case_random
import case_streams
import case_strings
import case_telegrams
from case_parts import case

NAMED = {
    "table": lambda: iter([case(14)]),
    "strings": case_strings.make,
    "frames": case_frames.make,
    "minutes": case_minutes.make,
    "months": case_months.make,
    "places": case_places.make,
    "stamps": case_others.stamps,
    "bridges": case_others.bridges,
    "coasting": case_coasting.make,
    "streams": case_streams.make,
    "books": case_others.books,
    "telegrams": case_telegrams.make,
    "quarters": case_quarters.make,
    "bases": case_bases.make,
}


def stream_of(arguments: list) -> Iterator[bytes]:
    """The cases asked for, or an error in words."""
    if len(arguments) == 1 and arguments[0] in NAMED:
        return NAMED[arguments[0]]()
    if len(arguments) == 3 and arguments[0] == "random":
        return case_random.make(int(arguments[1]), int(arguments[2]))
    sys.exit("use: cases.py %s, or cases.py random SEED COUNT" % "|".join(NAMED))


def main() -> None:
    write = sys.stdout.buffer.write
    for one in stream_of(sys.argv[1:]):
        write(one)


if __name__ == "__main__":
    main()
