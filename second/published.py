"""The published tables of a frame's pulses, kept as data in published/: the control functions of documents 000 to 003,
and the time places of IRIG standard 200. Each place is given the number of its field and its weight."""

import pathlib
import re
from typing import Dict, Tuple

FOLDER = pathlib.Path(__file__).resolve().parent / "published"
FIELDS = ["always 0", "mark", "second", "minute", "hour", "day of year", "year", "leap pending", "deletion",
          "change pending", "summer", "sign", "offset hours", "half hour", "quality", "parity", "second of day"]
DESIGNATIONS = {
    r"Position Identifier": "mark", r"empty, always zero": "always 0", r"Year BCD encoded (\d+)": "year",
    r"LSP - Leap Second Pending": "leap pending", r"LS - Leap Second": "deletion",
    r"DSP - Daylight Saving Pending": "change pending", r"DST - Daylight Saving Time": "summer",
    r"Timezone Offset Sign": "sign", r"TZ Offset binary encoded (\d+)": "offset hours",
    r"TZ Offset 0\.5 hour": "half hour", r"TFOM Time figure of merit": "quality", r"PARITY": "parity",
}
WEIGHTLESS = ("mark", "always 0")


def lines_of(name: str) -> list:
    text = (FOLDER / name).read_text(encoding="utf-8")
    return [line.split("\t") for line in text.split("\n") if line and not line.startswith("#")]


def control_functions() -> Dict[int, Tuple[str, int]]:
    """Place to field and weight; the four bits of the figure of merit weigh 1, 2, 4 and 8 in their order."""
    found, merit = {}, 1
    for place, designation in lines_of("control_functions.txt"):
        pattern, name = next((p, n) for p, n in DESIGNATIONS.items() if re.match(p, designation))
        number = re.match(pattern, designation).groups()
        weight = 0 if name in WEIGHTLESS else int(number[0]) if number else 1
        if name == "quality":
            weight, merit = merit, merit * 2
        found[int(place)] = (name, weight)
    return found


def table() -> Dict[int, Tuple[str, int]]:
    """Every place that one of the two publications names."""
    found = {int(place): (name, int(weight)) for place, name, weight in lines_of("irig_200.txt")}
    for place, entry in control_functions().items():
        if found.get(place, entry) != entry:
            raise ValueError("the publications differ at %d" % place)
        found[place] = entry
    return found


def table_line() -> str:
    """The hundred places, each with the number of its field and its weight; a place that nothing names is always 0."""
    named = table()
    entries = (named.get(place, ("always 0", 0)) for place in range(100))
    return "table " + " ".join("%d=%d*%d" % (place, FIELDS.index(name), weight)
                               for place, (name, weight) in enumerate(entries))
