"""Small tools shared by the formats: lowest bad place, text numbers, and pulse fields.
A pulse field is a list of (pulse, weight); its value is the sum of the weights of its ones."""

from typing import FrozenSet, Iterable, List, Mapping, Optional, Sequence, Tuple

from reading import Refusal, base_refusal

Field = Sequence[Tuple[int, int]]


def lowest_bad_place(data: bytes, allowed: Sequence[FrozenSet[int]]) -> Optional[int]:
    """The first place whose byte is not among those allowed there; lengths must agree."""
    for place, good in enumerate(allowed):
        if data[place] not in good:
            return place
    return None


def form_refusal(base: int, data: bytes, allowed: Sequence[FrozenSet[int]]) -> Optional[Refusal]:
    """Code 1 for another length than that of the layout, code 19 for what is no base, code 2 at the
    lowest bad place."""
    if len(data) != len(allowed):
        return Refusal(1)
    refusal = base_refusal(base)
    if refusal is not None:
        return refusal
    place = lowest_bad_place(data, allowed)
    return None if place is None else Refusal(2, place)


def text_number(data: bytes, start: int, length: int = 2) -> int:
    """The decimal number at a place of a string whose digits have been checked."""
    return int(data[start:start + length])


def field_value(pulses: bytes, field: Field) -> int:
    total = 0
    for pulse, weight in field:
        if pulses[pulse]:
            total += weight
    return total


def put_field(pulses: bytearray, field: Field, value: int) -> None:
    """Sets the field's pulses: the largest weight that still fits, then the next, down to 1.
    For weights 1 2 4 8 10 20 .. this is BCD, for powers of two it is binary."""
    for pulse, weight in sorted(field, key=lambda entry: -entry[1]):
        pulses[pulse] = 1 if value >= weight else 0
        if value >= weight:
            value -= weight


def decimal_digits(field: Field) -> List[Tuple[int, Field]]:
    """Splits a BCD field into its digits: (unit, the field's part with 1 2 4 8 times the unit)."""
    digits = []
    for unit in (1, 10, 100):
        part = [entry for entry in field if unit <= entry[1] <= 8 * unit]
        if part:
            digits.append((unit, part))
    return digits


def digits_that_can_exceed(fields: Iterable[Field]) -> List[Tuple[int, int, Field]]:
    """The digits, of BCD fields, that have all four weights: (the field's first pulse, largest good
    value, part)."""
    return [(field[0][0], 9 * unit, part) for field in fields
            for unit, part in decimal_digits(field) if len(part) == 4]


def digit_refusal(pulses: bytes, digits: Sequence[Tuple[int, int, Field]]) -> Optional[Refusal]:
    """Code 3 at the first pulse of the lowest field that has a digit over nine."""
    places = [place for place, largest, part in digits if field_value(pulses, part) > largest]
    return Refusal(3, min(places)) if places else None


def ones_are_odd(pulses: bytes, places: Iterable[int]) -> bool:
    return sum(pulses[place] for place in places) % 2 == 1


def parity_refusal(pulses: bytes, groups: Mapping[int, Iterable[int]]) -> Optional[Refusal]:
    """Code 4 at the lowest parity whose group, the parity in it, has an odd number of ones."""
    places = [parity for parity, group in groups.items() if ones_are_odd(pulses, group)]
    return Refusal(4, min(places)) if places else None
