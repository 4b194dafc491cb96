"""What GMD data of PowerModels have beside the tables of a case: voltages of buses, places, lengths, and the field; and what is told
of all of it."""

import dataclasses
from collections.abc import Mapping, Sequence

from .counts import plural
from .findings import refuse
from .places import degrees_between
from .powermodels_reading import LineFacts, Reading, ground_note, resistance_note
from .powermodels_spans import loop_notes, misfits

Values = Mapping[str, object]
LENGTHS = ("len_km", "length_km", "length")  # of a branch, in km
SHOWN = 6  # names and lines that are told alike


def number(value: object) -> float | None:
    """A finite number; None for anything else."""
    if isinstance(value, bool) or not isinstance(value, (int, float)) or not abs(value) <= 1e15:
        return None
    return float(value)


def rows_of(table: object) -> list[tuple[str, Values]]:
    """The rows of a table that may be there, by their indices."""
    if not isinstance(table, dict):
        return []
    return [(str(index), row) for index, row in table.items() if isinstance(row, dict)]


@dataclasses.dataclass(frozen=True)
class Extras:
    """The kilovolts of buses, and places by the names and by the buses of rows."""

    kilovolts: Mapping[str, float]
    places: Mapping[str, tuple[float, float]]
    places_of_buses: Mapping[str, tuple[float, float]]

    def kilovolts_of(self, bus: object) -> float | None:
        return self.kilovolts.get(str(bus))

    def kilovolts_at(self, node: Values) -> float | None:
        return self.kilovolts_of(node.get("parent_index"))

    def place_of(self, node: Values) -> tuple[float, float] | None:
        return self.places.get(str(node.get("name"))) or self.places_of_buses.get(str(node.get("parent_index")))

    def mapped(self, start: Values, end: Values) -> tuple[float, float] | None:
        """The way between two nodes in km; None where one has no place."""
        places = self.place_of(start), self.place_of(end)
        if places[0] is None or places[1] is None:
            return None
        north, east = degrees_between(places[0], places[1])
        return north / 1000, east / 1000

    def length_of(self, branch: Values) -> float | None:
        found = [length for key in LENGTHS if (length := number(branch.get(key))) is not None and length > 0]
        return found[0] if found else None


def read_extras(data: Values) -> Extras:
    """What is there and can be read; the rest is as if it weren't there."""
    kilovolts, places, places_of_buses = {}, {}, {}
    for index, row in rows_of(data.get("bus")):
        base = number(row.get("base_kv"))
        if base is not None and base > 0:
            kilovolts[str(row.get("bus_i", row.get("index", index)))] = base
    for index, row in rows_of(data.get("bus_gmd")):
        latitude, longitude = number(row.get("lat")), number(row.get("lon"))
        if latitude is not None and longitude is not None and abs(latitude) <= 90 and abs(longitude) <= 360:
            if row.get("name"):
                places[str(row["name"])] = (latitude, longitude)
            places_of_buses[str(row.get("parent_index", index))] = (latitude, longitude)
    places_of_buses.pop("-1", None)
    return Extras(kilovolts, places, places_of_buses)


def strength_of(files: tuple[str, str], fields: Sequence[object], reading: Reading) -> float:
    """The strength of both fields in V/km: by the option, or by what the files say where the desk has written them, or else 1."""
    if reading.field is not None:
        return reading.field
    parts = [(number(field.get("north")), number(field.get("east"))) for field in fields if isinstance(field, dict)]
    if len(parts) != 2:
        return 1.0
    (north, none_east), (none_north, east) = parts
    if not none_east and not none_north and north and north > 0 and east == north:
        return north / 1000
    if not north and not east and none_east and none_north:
        raise refuse(files[0], f"its field is to the east, and that of {files[1]} to the north; change the two files over")
    words = "its field and that of the other file aren't as strong, one to the north and one to the east"
    raise refuse(files[0], f"{words}; write both with one strength, as --north=1000 and as --north=0 --east=1000")


def notes_of(
    lines: Sequence[LineFacts], siemens: Sequence[float], by_buses: Sequence[str], reading: Reading, strength: float
) -> list[str]:
    """What is told of the data: how they are read, and what of them doesn't fit."""
    notes = [reading.text(strength)]
    if by_buses:
        notes.append(f"the rated voltages of {plural(len(by_buses), 'unit')} are base_kv of their buses: {names_text(by_buses)}")
    wrong = misfits(lines)
    notes += wrong[:SHOWN] + ([f"and {plural(len(wrong) - SHOWN, 'line')} more, whose voltages don't fit"] if len(wrong) > SHOWN else [])
    notes += loop_notes(lines)
    beside = (resistance_note(lines, reading), ground_note([one for one in siemens if one > 0], reading))
    return notes + [words for words in beside if words is not None]


def names_text(names: Sequence[str]) -> str:
    more = f" and {len(names) - SHOWN} more" if len(names) > SHOWN else ""
    return ", ".join(names[:SHOWN]) + more
