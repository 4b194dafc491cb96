#!/usr/bin/env python3
"""Makes the pair region.raw and region.gic, and the tables that go with it, of the tables of the sample region.

    python3 desk/tests/make_pair.py FOLDER [--version=34]

Buses get numbers from 101 on and substations from 1 on, in the order of their tables. Each unit has two buses, as a
power flow has it: the step-up units and those without a grounded winding get one of 20 kV beside them. The version is
that of the file `.raw`: 33, or 34 with lines that name the columns.
"""

import argparse
import csv
import decimal
import pathlib

TABLES = pathlib.Path(__file__).resolve().parents[2] / "examples" / "tables"
BASE_MVA = 100
BESIDE_KV = "20.0"
VECTORS = {"delta-wye": "YNd1", "wye-wye": "YNyn0", "auto": "YNa0", "delta-delta": "Dd0"}
Row = dict[str, str]


def table(name: str) -> list[Row]:
    with open(TABLES / f"{name}.csv", newline="", encoding="utf-8") as file:
        return list(csv.DictReader(file))


class Pair:
    """The two files and the tables, line by line."""

    def __init__(self, version: int) -> None:
        self.version = version
        self.substations = {row["name"]: number for number, row in enumerate(table("substations"), 1)}
        buses = table("buses")
        self.buses = {row["name"]: number for number, row in enumerate(buses, 101)}
        self.kilovolts = {row["name"]: row["kv"] for row in buses}
        self.station_of = {row["name"]: row["substation"] for row in buses}
        self.units = table("transformers")
        self.lines = table("lines")
        self.beside = {row["name"]: number for number, row in enumerate(self.units, 901) if not row["low"]}

    def ends(self, unit: Row) -> tuple[int, int]:
        low = self.buses[unit["low"]] if unit["low"] else self.beside[unit["name"]]
        return self.buses[unit["high"]], low

    def named(self, names: str) -> list[str]:
        """A line that names the columns, from version 34 on."""
        return [f"@!{names}"] if self.version >= 34 else []

    def raw(self) -> str:
        lines = self.named(" IC,SBASE,REV,XFRRAT,NXFRAT,BASFRQ")
        lines += [f"0, {BASE_MVA}.00, {self.version}, 0, 1, 60.00 / the sample region"]
        lines += ["made of the tables of examples/", ""]
        if self.version >= 34:
            lines += ["GENERAL, THRSHZ=0.0001, PQBRAK=0.7", "0 / END OF SYSTEM-WIDE DATA, BEGIN BUS DATA"]
        lines += self.named("   I,'NAME        ', BASKV, IDE,AREA,ZONE,OWNER, VM, VA") + self.bus_lines()
        lines += ["0 / END OF BUS DATA, BEGIN LOAD DATA", "0 / END OF LOAD DATA, BEGIN FIXED SHUNT DATA"]
        lines += ["0 / END OF FIXED SHUNT DATA, BEGIN GENERATOR DATA", "0 / END OF GENERATOR DATA, BEGIN BRANCH DATA"]
        rates = ",".join(f"RATE{number}" for number in range(1, 13))
        lines += self.named(f" I, J,'CKT', R, X, B, 'N A M E', {rates}, GI, BI, GJ, BJ,STAT,MET, LEN")
        lines += [self.branch(row) for row in self.lines]
        if self.version >= 34:
            lines += ["0 / END OF BRANCH DATA, BEGIN SYSTEM SWITCHING DEVICE DATA"]
            lines += ["0 / END OF SYSTEM SWITCHING DEVICE DATA, BEGIN TRANSFORMER DATA"]
        else:
            lines += ["0 / END OF BRANCH DATA, BEGIN TRANSFORMER DATA"]
        lines += self.named(" I, J, K,'CKT',CW,CZ,CM, MAG1, MAG2,NMETR,'N A M E',STAT,O1,F1")
        lines += self.named(" R1-2, X1-2, SBASE1-2") if self.version >= 34 else []
        for unit in self.units:
            lines += self.transformer(unit)
        lines += ["0 / END OF TRANSFORMER DATA, BEGIN AREA DATA", "0 / END OF AREA DATA, BEGIN TWO-TERMINAL DC DATA"]
        return "\n".join([*lines, "Q"]) + "\n"

    def bus_lines(self) -> list[str]:
        lines = [
            f"{number},'{name[:12]:12}',{self.kilovolts[name]:>6}.0,1,1,1,1,1.00000,0.0000"
            for name, number in self.buses.items()
        ]
        return lines + [f"{number},'{name:12}',{BESIDE_KV},2,1,1,1,1.0,0.0" for name, number in self.beside.items()]

    def branch(self, row: Row) -> str:
        start, end = row["from"], row["to"]
        # Per unit with as many digits as bring back the ohm to a micro-ohm.
        per_unit = decimal.Decimal(row["ohm"]) * BASE_MVA / decimal.Decimal(self.kilovolts[start]) ** 2
        reactance = "-0.01000" if row["capacitor"] else "0.02500"
        head = f"{self.buses[start]},{self.buses[end]},'{self.circuit(row)} ',{per_unit:.15E},{reactance},0.10000"
        if self.version >= 34:
            return f"{head},'{row['name']:40}'" + ",0.0" * 16 + ",1,1,1.0,1,1.0"
        return f"{head},0.0,0.0,0.0,0.0,0.0,0.0,0.0,1,1,1.0,1,1.0"

    def circuit(self, row: Row) -> str:
        """Circuits between the same buses are numbered."""
        same = [other["name"] for other in self.lines if (other["from"], other["to"]) == (row["from"], row["to"])]
        return str(same.index(row["name"]) + 1)

    def unit_circuit(self, unit: Row) -> str:
        same = [other["name"] for other in self.units if self.ends(other) == self.ends(unit)]
        return str(same.index(unit["name"]) + 1)

    def transformer(self, unit: Row) -> list[str]:
        high, low = self.ends(unit)
        rated = unit["low_kv"] or "0.0"
        return [
            f"{high},{low},0,'{self.unit_circuit(unit)} ',1,1,1,0.0,0.0,2,'{unit['name']:12}',1,1,1.0",
            "0.00200,0.12000,100.00",
            f"1.00000,{unit['high_kv']},0.000,0.00,0.00,0.00,0,0,1.1,0.9,1.1,0.9,33,0,0.0,0.0",
            f"1.00000,{rated}",
        ]

    def gic(self) -> str:
        lines = ["GICFILEVRSN=3", "/ the sample region"]
        for row in table("substations"):
            place = f"0,{row['latitude']},{row['longitude']},{row['ground_ohm']},''"
            lines.append(f"{self.substations[row['name']]},'{row['name']}',{place}")
        lines.append("0 / END OF SUBSTATION DATA, BEGIN BUS SUBSTATION DATA")
        lines += [f"{number},{self.substations[self.station_of[name]]}" for name, number in self.buses.items()]
        for unit in self.units:
            if unit["name"] in self.beside:
                lines.append(f"{self.beside[unit['name']]},{self.substations[self.station_of[unit['high']]]}")
        lines.append("0 / END OF BUS SUBSTATION DATA, BEGIN TRANSFORMER DATA")
        lines += [self.windings(unit) for unit in self.units]
        lines += ["0 / END OF TRANSFORMER DATA, BEGIN FIXED SHUNT DATA"]
        lines += ["0 / END OF FIXED SHUNT DATA, BEGIN BRANCH DATA"]
        return "\n".join([*lines, "0 / END OF BRANCH DATA, BEGIN EARTH MODEL DATA", "0", "Q"]) + "\n"

    def windings(self, unit: Row) -> str:
        high, low = self.ends(unit)
        first = unit["high_ohm"] or unit["series_ohm"] or "0.5"
        second = unit["low_ohm"] or unit["common_ohm"] or "0.002"
        blocked = int(unit["neutral"] == "blocked")
        resistor = unit["neutral"] if unit["neutral"] not in ("", "blocked") else "0.0"
        head = f"{high},{low},0,'{self.unit_circuit(unit)} ',{first},{second},0.0,{blocked},0,0"
        return f"{head},'{VECTORS[unit['kind']]}',1,0.6,{resistor},0.0,0.0,0"

    def zones_table(self) -> str:
        rows = [f"{row['name']},{row['geomagnetic_latitude']},{row['beta']}" for row in table("zones")]
        return "\n".join(["name,geomagnetic_latitude,beta", *rows]) + "\n"

    def lines_table(self) -> str:
        """The zone of each line, and the span of the one that was measured."""
        rows = [
            f"{self.buses[row['from']]},{self.buses[row['to']]},{self.circuit(row)},{row['zone']},"
            f"{row['north_km']},{row['east_km']}"
            for row in self.lines
        ]
        return "\n".join(["bus_i,bus_j,circuit,zone,north_km,east_km", *rows]) + "\n"

    def files(self) -> dict[str, str]:
        return {
            "region.raw": self.raw(),
            "region.gic": self.gic(),
            "zones.csv": self.zones_table(),
            "lines.csv": self.lines_table(),
        }


def main() -> None:
    parser = argparse.ArgumentParser(description="Makes region.raw and region.gic with the tables that go with them.")
    parser.add_argument("folder", type=pathlib.Path)
    parser.add_argument("--version", type=int, default=33, choices=(33, 34))
    options = parser.parse_args()
    options.folder.mkdir(parents=True, exist_ok=True)
    for name, text in Pair(options.version).files().items():
        (options.folder / name).write_text(text, encoding="utf-8")


if __name__ == "__main__":
    main()
