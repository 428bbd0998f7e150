"""Before anything is counted: the proved functions, the C baseline and the second program have to give the same answers, on
every record that is counted, on damaged ones, under other bases, around every month end, on inputs with one fault and with
several, on strings of every length, on what becomes of the coasting mark, on telegrams around every change, and on quarter
hours."""
import subprocess
import sys

import kit
import records
import rows
import case_bases
import case_coasting
import case_door
import case_months
import case_places
import case_quarters
import case_telegrams
from answers import HEADER
from book import base_of, listing_text
from case_parts import DROPPED, bridge_case, bridge_with_case, case

STEP = 7
OTHER_BASES = (records.EARLY_BASE, records.NO_BASE)
OTHER_STEP = 10
PULSES = (0, 1, 2, 255)
ANSWERED_IN_C = {1, *range(3, 9), 10, 11, 12, 15, 16}
BOOK = 13
# What the listing program is started with: nothing, either base, what is near one, and more than it looks at.
ARGUMENTS = ((), ("1990",), ("2000",), ("",), ("199",), ("1991",), ("19900",), ("02000",), (" 2000",), ("2000 ",), ("+1990",),
             ("2100",), ("1990", "2000"), ("2000", ""), ("", "1990"), ("0", "2000"))


def damaged(good, step=STEP):
    """Every step-th one-byte change."""
    for change in range(0, 256 * len(good), step):
        place, byte = divmod(change, 256)
        yield good[:place] + bytes((byte,)) + good[place + 1 :]


def damaged_streams(stream):
    """Every pulse replaced by each of a few others."""
    for place in range(len(stream)):
        for pulse in PULSES:
            yield stream[:place] + bytes((pulse,)) + stream[place + 1 :]


def case_of(op, record, base=records.BASE):
    """A record as the second program's case."""
    if op == rows.BRIDGE:
        return bridge_case(records.ROOM, record, base)
    if op == rows.BRIDGE_DROPPING:
        return bridge_with_case(records.ROOM, DROPPED, record, base)
    return case(op, record, base)


def cases_of_records(length):
    """The records of each row and damaged ones under its base, some of the records under others."""
    for row in rows.record_rows():
        made = [row.record(number) for number in range(length)]
        cases = [case_of(row.op, record, row.base) for record in [*made, *damaged(made[1])]]
        yield row.name, cases + [case_of(row.op, record, base) for base in OTHER_BASES for record in made[::OTHER_STEP]]


def cases_of_pulses():
    for name, op, stream in (("pulses IEEE 1344", rows.FRAME_PULSES, records.frames(3)),
                             ("pulses DCF77", rows.MINUTE_PULSES, records.minutes(4))):
        spoiled = [stream + stream[-150:] + bytes(61), *damaged_streams(stream)]
        cases = [case(op, other) for other in spoiled]
        yield name, cases + [case(op, other, base) for base in OTHER_BASES for other in spoiled[::OTHER_STEP]]


def cases_of_second():
    """The leap rule at every month end, codes and places, lengths of strings, the coasting mark, telegrams, quarter hours, and
    bases: the second program's own cases, as far as the C baseline answers them."""
    for name, make in (("month ends", case_months.make), ("codes and places", case_places.make),
                       ("lengths of strings", case_door.make), ("coasting mark", case_coasting.make),
                       ("telegrams", case_telegrams.make), ("quarter hours", case_quarters.make),
                       ("bases", case_bases.make)):
        yield name, [one for one in make() if one[0] in ANSWERED_IN_C]


def second_answers(given):
    words = [sys.executable, kit.ROOT / "second" / "answers.py"]
    return subprocess.run(words, input=given, stdout=subprocess.PIPE, check=True).stdout


def first_difference(cases, answers):
    for number, one in enumerate(cases):
        said = [lines[number : number + 1] for lines in answers]
        if said[0] != said[1] or said[1] != said[2]:
            return f"case {one.hex()}\n  proved {said[0]}\n  C      {said[1]}\n  second {said[2]}"
    return "the numbers of lines differ"


def compare(ours, plain, length):
    """Stops where two of the three differ; else the number of cases."""
    total = 0
    for name, cases in [*cases_of_records(length), *cases_of_pulses(), *cases_of_second()]:
        given = b"".join(cases)
        outputs = (kit.output_of(ours, given), kit.output_of(plain, given), second_answers(given))
        answers = [output.split(b"\n") for output in outputs]
        if outputs[0] != outputs[1] or outputs[1] != outputs[2] or len(answers[0]) != len(cases) + 1:
            raise SystemExit(f"bench: {name}: {first_difference(cases, answers)}")
        total += len(cases)
    return total


def compare_ways(programs):
    """That the counted programs bridge by the way that their operation stands for. The page that they print shows it of a string
    that coasts with a quality of its own that is not 15."""
    string = records.accepted("Meinberg", 3)
    frames = {op: second_answers(case_of(op, string)).split()[2][:200] for op in (rows.BRIDGE, rows.BRIDGE_DROPPING)}
    if frames[rows.BRIDGE] == frames[rows.BRIDGE_DROPPING]:
        raise SystemExit("bench: the string that is to show the way goes over alike either way")
    for op, frame in frames.items():
        for program in programs:
            page = kit.output_of(program, rows.given_to(op, [string])).partition(b"\n")[2]
            if page[:100].hex().encode() != frame:
                raise SystemExit(f"bench: {program}: operation {op} bridges another way")


def own_books(length):
    """Books with the arguments that they are listed with: a book, books cut short, some changes of a small one; and some under
    every argument."""
    whole, small, early = records.book(length), records.book(10), records.book(length, records.EARLY_BASE)
    overlong = whole + bytes(65537)
    for one in (whole, overlong, *(whole[:end] for end in range(0, len(whole), 997)), *damaged(small, 1009)):
        yield one, ()
    for arguments in ARGUMENTS:
        for one in (b"", small, early, overlong):
            yield one, arguments


def books_of_second():
    """The second program's own books of month ends, of faults, of strings under the other's kind, of quarter hours, and of
    bases; each with its base in digits, which is no argument that is taken where it is no base."""
    for module in (case_months, case_places, case_door, case_quarters, case_bases):
        for one in module.make():
            op, base, _ = HEADER.unpack_from(one)
            if op == BOOK:
                yield one[HEADER.size :], (str(base),)


def compare_listings(programs, length):
    """The same for the listing program."""
    books = [*own_books(length), *books_of_second()]
    for one, arguments in books:
        wrote = [kit.output_of(program, one, *arguments) for program in programs]
        wrote.append(listing_text(base_of([word.encode() for word in arguments]), one).encode())
        if any(text != wrote[0] for text in wrote):
            raise SystemExit(f"bench: listings with {arguments} differ on the book {one[:200].hex()}.. of {len(one)} bytes")
    return len(books)
