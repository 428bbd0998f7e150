"""The rows of the table: what is counted, on which records, and what of it is the driver's own work."""
import collections
import struct
from functools import partial

import counting
import records

SHORT = 20
GOAL = 1.25
PULSE_GOAL = 150
TELEGRAM_GOAL = 2
# What refusing a wrong last byte or pulse cost when it was first counted, and how many times that it may cost.
LAST_WRONG_GOAL = 1.05
LAST_WRONG = {"string, Meinberg, refused: last byte": 435.7, "string, Uni Erlangen, refused: last byte": 848.0,
              "read IEEE 1344, refused: last pulse": 1414.8, "read DCF77, refused: last pulse": 934.8}
# The operation that reads a record of each format: both strings go through one door.
READ = {"Meinberg": 1, "Uni Erlangen": 1, "IEEE 1344": 3, "DCF77": 4}
WRITE, BRIDGE, BRIDGE_DROPPING, TELEGRAM = 5, 13, 14, 15
FRAME_PULSES, MINUTE_PULSES = 11, 12
# Operations that are the driver's work alone: its loop over the records, and for writers the readings taken apart before.
LOOP, DECODING = 0, 9

# A row: its name, the operation, the record of each number, the driver's operation that is taken off, the base of the years.
Row = collections.namedtuple("Row", "name op record driver base", defaults=(records.BASE,))
# What was counted: instructions a record of ours and of the C baseline, and in words the goal of its own that it misses.
Counted = collections.namedtuple("Counted", "name ours plain missed", defaults=("",))


def rows_of(called, op, driver, kinds, *form):
    """A row for each kind of record: what becomes of it, how it is made, and its base where that is not the usual one."""
    return [Row(f"{called}, {name}", op, partial(make, *form), driver, *base) for name, make, *base in kinds]


def reader_rows(form, op):
    """A reader: accepted, and refused in the order of its checks."""
    called, last = (f"string, {form}", "last byte") if form in records.STRINGS else (f"read {form}", "last pulse")
    kinds = (("accepted", records.accepted), ("refused: length", records.too_short),
             ("refused: base", records.accepted, records.NO_BASE), ("refused: first byte", records.first_byte_wrong),
             (f"refused: {last}", records.last_byte_wrong), ("refused: last check", records.refused_late))
    return rows_of(called, op, LOOP, kinds, form)


def writer_rows(form, op):
    """A writer: the same, with the room that it is lent in place of the length."""
    kinds = (("accepted", records.asked_well), ("refused: no room", records.without_room),
             ("refused: base", records.asked_well, records.NO_BASE), ("refused: last check", records.asked_in_vain))
    return rows_of(f"write {form}", op, DECODING, kinds, form)


def telegram_rows():
    kinds = (("accepted", records.telegram_asked), ("refused: no room", records.telegram_without_room),
             ("refused: base", records.telegram_asked, records.NO_BASE), ("refused: last check", records.telegram_too_late))
    return rows_of("telegram", TELEGRAM, LOOP, kinds)


def bridge_rows():
    """The bridge with either string, as it is and with the coasting mark dropped, and with one that it refuses by its last check."""
    rows = []
    for name, op in (("accepted", BRIDGE), ("mark dropped", BRIDGE_DROPPING)):
        for form in records.STRINGS:
            rows += rows_of(f"bridge, {form}", op, LOOP, ((name, records.bridged),), form)
    in_vain = (("refused: last check", records.bridged_in_vain),)
    return rows + rows_of("bridge, Uni Erlangen", BRIDGE, LOOP, in_vain, "Uni Erlangen")


def record_rows():
    """Every reader, that of strings with either string, every writer, the telegram, and the bridge."""
    rows = []
    for form, op in READ.items():
        rows += reader_rows(form, op)
    for place, form in enumerate(records.FORMATS):
        rows += writer_rows(form, WRITE + place)
    return rows + telegram_rows() + bridge_rows()


def header(op, size, base=records.BASE):
    """What stands before the records: the operation, the length of each, the base of their years."""
    return struct.pack("<BBH", op, size, base)


def given_to(op, made, base=records.BASE):
    return header(op, len(made[0]), base) + b"".join(made)


def difference(program, short, long, arguments):
    """The instructions that the longer input costs more, and what the program writes of it."""
    before, _ = counting.counted(program, short, *arguments)
    after, wrote = counting.counted(program, long, *arguments)
    return after - before, wrote


def both(programs, short, long, *arguments):
    """The same for ours and the C baseline, which have to write the same."""
    (ours, wrote), (plain, wrote_too) = (difference(program, short, long, arguments) for program in programs)
    if wrote != wrote_too:
        raise SystemExit(f"bench: {programs[0]} and {programs[1]} differ on an input that begins {long[:40]}")
    return ours, plain


def per_record(programs, op, record, length, base=records.BASE):
    """Instructions a record, of ours and of the C baseline, the driver's work included."""
    made = [record(number) for number in range(length)]
    ours, plain = both(programs, given_to(op, made[:SHORT], base), given_to(op, made, base))
    return ours / (length - SHORT), plain / (length - SHORT)


def drivers(programs, length):
    """The driver's own work a record."""
    loop = per_record(programs, LOOP, partial(records.accepted, "Meinberg"), length)
    decoding = per_record(programs, DECODING, partial(records.asked_well, "IEEE 1344"), length)
    return {LOOP: loop, DECODING: decoding}


def missed_by(name, ours, writer):
    """In words, the goal of its own that a row misses. `writer` is what "write DCF77, accepted" costs."""
    if name == "telegram, accepted" and ours > TELEGRAM_GOAL * writer:
        return f"over {TELEGRAM_GOAL} times the writer"
    if name in LAST_WRONG and ours > LAST_WRONG_GOAL * LAST_WRONG[name]:
        return f"over {LAST_WRONG_GOAL} times {LAST_WRONG[name]}"
    return ""


def counted_rows(programs, length):
    """Each row's counts, the driver's work taken off."""
    own = drivers(programs, length)
    yield Counted("driver of readers and bridge", *own[LOOP])
    yield Counted("driver of writers", *own[DECODING])
    writer = None
    for row in record_rows():
        counts = per_record(programs, row.op, row.record, length, row.base)
        ours, plain = (count - driver for count, driver in zip(counts, own[row.driver]))
        if row.name == "write DCF77, accepted":
            writer = ours
        yield Counted(row.name, ours, plain, missed_by(row.name, ours, writer))


def pulses_between(programs, op, stream, first, last):
    """Instructions a pulse for the pulses from number `first` on, up to `last`."""
    ours, plain = both(programs, header(op, 1) + stream[: first - 1], header(op, 1) + stream[:last])
    return ours / (last + 1 - first), plain / (last + 1 - first)


def not_under_goal(ours):
    return f"not under {PULSE_GOAL}" if ours >= PULSE_GOAL else ""


def pulse_rows(programs):
    """A pulse of a running reader: those that close nothing, the one that closes, and one that nearly closes."""
    frames, minutes = records.frames(3), records.minutes(4)
    nearly = frames[:299] + b"\x00"
    unclosed = minutes[:181] + bytes(61)
    kinds = (("IEEE 1344", FRAME_PULSES, frames, 201, 299, nearly, 300),
             ("DCF77", MINUTE_PULSES, minutes, 182, 240, unclosed, 242))
    for form, op, stream, first, last, spoiled, at in kinds:
        mean = pulses_between(programs, op, stream, first, last)
        yield Counted(f"pulse {form}, closes nothing (mean)", *mean, not_under_goal(mean[0]))
        worst = pulses_between(programs, op, spoiled, at, at)
        yield Counted(f"pulse {form}, closes nothing (nearly)", *worst, not_under_goal(worst[0]))
        yield Counted(f"pulse {form}, closes", *pulses_between(programs, op, stream, last + 1, last + 1))


def listing_rows(programs, length):
    """A record of the listing program, reading, stamping and printing together; by its own base, and by 1990, named."""
    for name, base, arguments in (("listed record", records.BASE, ()),
                                  ("listed record, base 1990", records.EARLY_BASE, ("1990",))):
        ours, plain = both(programs, records.book(SHORT, base), records.book(length, base), *arguments)
        yield Counted(name, ours / (length - SHORT), plain / (length - SHORT))
