"""One network of ten stations in every form that the desk reads: tables, `.raw` of version 33 and 35 with `.gic`, and GMD data of
PowerModels in two fields. It has a unit of each kind that all of these can say, neutrals with a resistor and with a device, a
phase shifter, a series capacitor, two circuits side by side, and a switching station without a ground."""

import json
from typing import Any

import shared  # noqa: F401  (by which the desk is found)

from gicdesk.places import degrees_between

STATIONS = {  # latitude, longitude, ground in ohm
    "Alder": (50.10, -100.20, 0.21),
    "Birch": (50.60, -99.30, 0.35),
    "Cedar": (50.00, -98.40, 0.18),
    "Elm": (49.40, -99.90, 0.27),
    "Fir": (49.30, -98.90, None),
    "Hazel": (49.20, -98.00, 0.40),
    "Larch": (48.70, -100.30, 0.31),
    "Maple": (48.60, -99.20, 0.24),
    "Oak": (48.50, -98.30, 0.15),
    "Pine": (49.90, -99.20, 0.33),
}
BUSES = {  # number, station, kV
    "A500": (101, "Alder", 500),
    "A345": (102, "Alder", 345),
    "B345": (103, "Birch", 345),
    "B138": (104, "Birch", 138),
    "C500": (105, "Cedar", 500),
    "E345": (106, "Elm", 345),
    "E345p": (107, "Elm", 345),
    "E138": (108, "Elm", 138),
    "F345": (109, "Fir", 345),
    "H345": (110, "Hazel", 345),
    "L345": (111, "Larch", 345),
    "M345": (112, "Maple", 345),
    "M138": (113, "Maple", 138),
    "O500": (114, "Oak", 500),
    "O345": (115, "Oak", 345),
    "P500": (116, "Pine", 500),
    "H138": (117, "Hazel", 138),
    "L18": (118, "Larch", 18),
    "C22": (119, "Cedar", 22),
    "P22": (120, "Pine", 22),
    "B13": (121, "Birch", 13.8),
}
SHIFTER = "E-PS"
LINES = {  # from, to, ohm a phase, circuit, whether it has a series capacitor
    "A-P": ("A500", "P500", 1.10, "1", False),
    "P-C": ("P500", "C500", 0.96, "1", False),
    "C-O": ("C500", "O500", 2.45, "1", False),
    "A-C": ("A500", "C500", 1.90, "1", True),
    "A-B": ("A345", "B345", 3.10, "1", False),
    "A-E": ("A345", "E345", 2.75, "1", False),
    "B-F": ("B345", "F345", 5.20, "1", False),
    "E-F": ("E345p", "F345", 2.60, "1", False),
    "F-H": ("F345", "H345", 2.35, "1", False),
    "E-L-1": ("E345", "L345", 2.90, "1", False),
    "E-L-2": ("E345", "L345", 2.95, "2", False),
    "L-M": ("L345", "M345", 2.85, "1", False),
    "M-O": ("M345", "O345", 2.40, "1", False),
    "H-O": ("H345", "O345", 2.95, "1", False),
    "E-M": ("E138", "M138", 9.40, "1", False),
    "M-H": ("M138", "H138", 10.2, "1", False),
}
# kind, buses, vector group, ohm of its windings, and in its neutral: ohm, blocked or nothing
UNITS: dict[str, tuple[str, tuple[str, ...], str, tuple[float, ...], str]] = {
    "A-T1": ("auto", ("A500", "A345"), "YNa0", (0.16, 0.09), ""),
    "B-T1": ("wye-wye", ("B345", "B138"), "YNyn0", (0.42, 0.11), ""),
    "B-T2": ("delta-delta", ("B345", "B13"), "Dd0", (), ""),
    "C-G1": ("delta-wye", ("C500", "C22"), "YNd1", (0.19,), ""),
    "E-T1": ("auto", ("E345", "E138"), "YNa0", (0.26, 0.14), "blocked"),
    "H-T1": ("wye-wye", ("H345", "H138"), "YNyn0", (0.39, 0.10), "blocked"),
    "L-G1": ("delta-wye", ("L345", "L18"), "YNd1", (0.24,), "2.5"),
    "M-T1": ("wye-wye", ("M345", "M138"), "YNyn0", (0.36, 0.09), ""),
    "O-T1": ("auto", ("O500", "O345"), "YNa0", (0.17, 0.08), ""),
    "P-G1": ("delta-wye", ("P500", "P22"), "YNd1", (0.22,), ""),
}
SHIFTER_OHM = (0.2, 0.1)
ZONES = "name,geomagnetic_latitude,beta\nplain,57.30,0.85\n"
SCALE = 0.68  # alpha 0.8 by the program's table, times beta
WINDINGS = {"auto": ("series", "common"), "wye-wye": ("high", "low"), "delta-wye": ("high",), "delta-delta": ()}
CONFIGS = {"auto": "gwye-gwye-auto", "wye-wye": "gwye-gwye", "delta-wye": "gwye-delta", "delta-delta": "delta-delta"}
BRANCHES = {"series": "gmd_br_series", "common": "gmd_br_common", "high": "gmd_br_hi", "low": "gmd_br_lo"}


def span(start: str, end: str) -> tuple[int, int]:
    """Whole metres to the north and to the east from one bus to another."""
    places = [STATIONS[BUSES[bus][1]][:2] for bus in (start, end)]
    north, east = degrees_between(places[0], places[1])
    return round(north), round(east)


def tables() -> dict[str, str]:
    texts = {
        "zones": ZONES,
        "substations": "name,latitude,longitude,ground_ohm\n",
        "buses": "name,substation,kv\n",
        "lines": "name,from,to,zone,ohm,north_km,east_km,capacitor\n",
        "transformers": "name,kind,high,low,high_kv,low_kv,high_ohm,low_ohm,series_ohm,common_ohm,neutral,vector_group\n",
    }
    for name, (latitude, longitude, ohm) in STATIONS.items():
        texts["substations"] += f"{name},{latitude:.2f},{longitude:.2f},{'' if ohm is None else ohm}\n"
    used = {bus for start, end, *_ in LINES.values() for bus in (start, end)} | {"E345p"}
    used |= {bus for kind, buses, *_ in UNITS.values() for bus in buses[: len(WINDINGS[kind])]}
    for name, (_, station, kilovolts) in BUSES.items():
        texts["buses"] += f"{name},{station},{kilovolts}\n" if name in used else ""
    for name, (start, end, ohm, _, capacitor) in LINES.items():
        texts["lines"] += f"{name},{start},{end},,{ohm},,,{'yes' if capacitor else ''}\n"
    texts["lines"] += f"{SHIFTER},E345,E345p,,{sum(SHIFTER_OHM):.1f},,,\n"
    for name, (kind, buses, group, ohms, neutral) in UNITS.items():
        windings = dict(zip(WINDINGS[kind], ohms))
        ends = buses[: len(ohms)]
        rated = [str(BUSES[bus][2]) for bus in ends] or [str(BUSES[buses[0]][2])]
        cells = [name, kind, *[*ends, "", ""][:2], *[*rated, ""][:2]]
        cells += [str(windings.get(role, "")) for role in ("high", "low", "series", "common")]
        texts["transformers"] += ",".join([*cells, neutral, group]) + "\n"
    return texts


def raw(version: int) -> str:
    """The power flow: a series capacitor is a branch of a negative X, and a phase shifter a transformer."""
    rates = ",0" * (12 if version >= 35 else 3)
    system = ["0 / END OF SYSTEM-WIDE DATA, BEGIN BUS DATA"] if version >= 35 else []
    lines = [f"0, 100.0, {version}, 0, 1, 60.0", "ten stations", "", *system]
    lines += [f"{number},'{name}',{kilovolts},1" for name, (number, _, kilovolts) in BUSES.items()]
    lines += ["0 / END OF BUS DATA, BEGIN LOAD DATA", "0 / END OF LOAD DATA, BEGIN FIXED SHUNT DATA"]
    lines += ["0 / END OF FIXED SHUNT DATA, BEGIN GENERATOR DATA", "0 / END OF GENERATOR DATA, BEGIN BRANCH DATA"]
    for name, (start, end, _, circuit, capacitor) in LINES.items():
        named = f",'{name}'" if version >= 35 else ""
        x = -0.02 if capacitor else 0.03
        ends = f"{BUSES[start][0]},{BUSES[end][0]},'{circuit} ',0.001,{x},0.1"
        lines.append(f"{ends}{named}{rates},0,0,0,0,1,1,0")
    lines.append("0 / END OF BRANCH DATA, BEGIN " + ("SYSTEM SWITCHING DEVICE DATA" if version >= 35 else "TRANSFORMER DATA"))
    if version >= 35:
        lines.append("0 / END OF SYSTEM SWITCHING DEVICE DATA, BEGIN TRANSFORMER DATA")
    units = [(name, buses) for name, (_, buses, *_) in UNITS.items()] + [(SHIFTER, ("E345", "E345p"))]
    for name, buses in units:
        numbers = [BUSES[bus][0] for bus in buses]
        lines += [f"{numbers[0]},{numbers[1]},0,'1 ',1,1,1,0,0,2,'{name}',1,1,1.0", "0.001,0.02,100", "1.0,0.0,0.0", "1.0,0.0"]
    return "\n".join([*lines, "0 / END OF TRANSFORMER DATA, BEGIN AREA DATA", "Q"]) + "\n"


def gic() -> str:
    numbers = {name: place for place, name in enumerate(STATIONS, 1)}
    lines = ["GICFILEVRSN=3"]
    for name, (latitude, longitude, ohm) in STATIONS.items():
        lines.append(f"{numbers[name]},'{name}',0,{latitude:.2f},{longitude:.2f},{'' if ohm is None else ohm},''")
    lines.append("0 / END OF SUBSTATION DATA, BEGIN BUS SUBSTATION DATA")
    lines += [f"{number},{numbers[station]}" for number, station, _ in BUSES.values()]
    lines.append("0 / END OF BUS SUBSTATION DATA, BEGIN TRANSFORMER DATA")
    for name, (kind, buses, group, ohms, neutral) in UNITS.items():
        first, second = (BUSES[bus][0] for bus in buses)
        one, other = (*ohms, *((0.3,) * (2 - len(ohms))))  # (a delta has a resistance, which counts nothing)
        device = "1,1" if neutral == "blocked" else "0,0"
        resistor = neutral if neutral not in ("", "blocked") else "0"
        lines.append(f"{first},{second},0,'1 ',{one},{other},0,{device},0,'{group}',3,0.0,{resistor},0,0,0")
    one, other = SHIFTER_OHM
    lines.append(f"106,107,0,'1 ',{one},{other},0,0,0,0,'YNyn0d1',3,0.0,0,0,0,0")
    lines += ["0 / END OF TRANSFORMER DATA, BEGIN FIXED SHUNT DATA", "0 / END OF FIXED SHUNT DATA, BEGIN BRANCH DATA"]
    for start, end, ohm, circuit, _ in LINES.values():
        lines.append(f"{BUSES[start][0]},{BUSES[end][0]},'{circuit} ',{ohm},0,0,0,0")
    return "\n".join([*lines, "0 / END OF BRANCH DATA, BEGIN EARTH MODEL DATA", "0", "Q"]) + "\n"


class Gmd:
    """GMD data in the making: nodes and branches by their names."""

    def __init__(self, way: int, field: float) -> None:
        self.way, self.field = way, field
        self.nodes: dict[str, dict[str, Any]] = {}
        self.rows: dict[str, dict[str, Any]] = {}

    def node(self, name: str, siemens: float = 0.0, parent: int = -1) -> int:
        place = len(self.nodes) + 1
        self.nodes[name] = {"index": place, "name": name, "status": 1, "g_gnd": siemens, "parent_index": parent}
        return place

    def branch(self, name: str, start: str, end: str, ohm: float, volts: float = 0.0) -> int:
        ends = {"f_bus": self.nodes[start]["index"], "t_bus": self.nodes[end]["index"]}
        place = len(self.rows) + 1
        self.rows[name] = {"index": place, "name": name, "br_status": 1, "br_r": ohm, "br_v": volts * self.field, **ends}
        return place

    def line(self, name: str, start: str, end: str, ohm: float) -> None:
        self.branch(name, start, end, ohm / 3, span(start, end)[self.way] / 1000 * SCALE)


def gmd_units(data: Gmd) -> list[dict[str, Any]]:
    """The windings of each unit, which end at the ground of its station or at a neutral of its own."""
    units = []
    for name, (kind, buses, _, ohms, neutral) in UNITS.items():
        ground = BUSES[buses[0]][1]
        if neutral:
            data.node(name)
        if neutral not in ("", "blocked"):
            data.branch(f"{name} neutral", name, ground, float(neutral))
        end = name if neutral else ground
        row: dict[str, Any] = {"name": name, "type": "xfmr", "config": CONFIGS[kind]}
        row |= {"hi_bus": BUSES[buses[0]][0], "lo_bus": BUSES[buses[1]][0] if len(ohms) == 2 else -1}
        for role, bus, ohm in zip(WINDINGS[kind], buses, ohms):
            to = buses[1] if role == "series" else end
            row[BRANCHES[role]] = data.branch(f"{name} {role}", bus, to, ohm / 3)
        units.append(row)
    return units


def powermodels(way: int, field: float = 1.0, places: bool = False) -> dict[str, Any]:
    """GMD data in a field to the north (0) or to the east (1). Rated voltages are those of the buses of the power flow."""
    data = Gmd(way, field)
    for station, (_, _, ohm) in STATIONS.items():
        if ohm is not None:
            data.node(station, 1 / ohm)
    for bus, (number, _, _) in BUSES.items():
        if bus not in ("L18", "C22", "P22", "B13"):
            data.node(bus, 0.0, number)
    units = gmd_units(data)
    for name, (start, end, ohm, _, capacitor) in LINES.items():
        if not capacitor:
            data.line(name, start, end, ohm)
    data.line(SHIFTER, "E345", "E345p", sum(SHIFTER_OHM))
    made: dict[str, Any] = {
        "gmd_bus": {str(row["index"]): row for row in data.nodes.values()},
        "gmd_branch": {str(row["index"]): row for row in data.rows.values()},
        "branch_gmd": {str(place): row | {"index": place} for place, row in enumerate(units, 1)},
        "bus": {str(number): {"bus_i": number, "base_kv": float(kilovolts)} for number, _, kilovolts in BUSES.values()},
    }
    if places:
        made["bus_gmd"] = {
            str(number): {"parent_index": number, "lat": STATIONS[station][0], "lon": STATIONS[station][1]}
            for number, station, _ in BUSES.values()
        }
    return made


def text(data: dict[str, Any]) -> str:
    return json.dumps(data)
