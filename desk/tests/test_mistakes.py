"""Mistakes in tables, files and reports, over the desk's commands: each is refused with its place, its value and what is
allowed, or told as a finding, or named in desk/README.md as one that nothing here can see. None ends in a traceback."""

import contextlib
import os
import re
import unittest
from unittest import mock

from shared import FAKE, REPORTS, TESTS, TOP, DeskTest, desk
from small import TABLES
from test_outages import BOTH, HEADS, LIST, ONE, OUTAGE, VOLTS, screen
from test_psse import GIC, RAW, ZONES


class Mistake:
    """A text that stands once in a file, what is written in its place, and the lines that are told."""

    def __init__(self, what: str, file: str, old: str, new: str, *told: str) -> None:
        self.what, self.file, self.old, self.new, self.told = what, file, old, new, list(told)

    def in_texts(self, texts: dict[str, str]) -> dict[str, str]:
        """The texts with the mistake in one of them."""
        assert texts[self.file].count(self.old) == 1, self.what
        return {name: text.replace(self.old, self.new) if name == self.file else text for name, text in texts.items()}


# fmt: off
CASE = (
    Mistake(
        "a resistance in milli-ohm", "transformers", "0.24,0.19", "240,190",
        "transformers.csv line 2, series_ohm: 240 ohm is not the 0.01 to 8 ohm that most series windings "
        "of 345 and 138 kV have; mend it: in milli-ohm it would be 0.24, or give --accept=winding:T1",
        "transformers.csv line 2, common_ohm: 190 ohm is not the 0.01 to 8 ohm that most common windings "
        "of 138 kV have; mend it: in milli-ohm it would be 0.19, or give --accept=winding:T1",
    ),
    Mistake(
        "a winding of 90 ohm", "transformers", "0.24,0.19", "90,0.19",
        "transformers.csv line 2, series_ohm: 90 ohm is not the 0.01 to 8 ohm that most series windings of "
        "345 and 138 kV have; mend it: in milli-ohm it would be 0.09, or give --accept=winding:T1",
    ),
    Mistake(
        "a winding in per unit of 100 MVA", "transformers", "0.42", "0.00035",
        "transformers.csv line 3, high_ohm: it is 0.00035, and not 0.001 to 1000 ohm; is it in micro-ohm, "
        "or per unit?",
    ),
    Mistake(
        "a winding in per unit of its own rating", "transformers", "0.42", "0.0042",
        "transformers.csv line 3, high_ohm: 0.0042 ohm is not the 0.02 to 5 ohm that most high windings of "
        "345 kV have; mend it: per unit on 100 MVA at 345 kV it would be 4.999, or give --accept=winding:T2",
    ),
    Mistake(
        "a ground of 180", "substations", "0.2,", "180,",
        "substations.csv line 2, ground_ohm: 180 ohm is not the 0.02 to 5 ohm that most grounds at 345 kV "
        "have; mend it: in milli-ohm it would be 0.18, or give --accept=ground:North",
    ),
    Mistake(
        "a ground of 0", "substations", "0.2,", "0,",
        "substations.csv line 2, ground_ohm: it is 0, and not 0.001 to 1000 ohm; without a ground the cell is empty",
    ),
    Mistake(
        "a ground that was forgotten", "substations", "0.2,", ",",
        "substations.csv line 2, ground_ohm: it is empty, and a winding is earthed here, so that no "
        "current can flow in it to the earth; write its resistance, or give --accept=ground:North",
    ),
    Mistake(
        "a neutral in milli-ohm", "transformers", "2.5", "250",
        "transformers.csv line 4, neutral: 250 ohm is not the 0.001 to 50 ohm that most neutrals have; mend "
        "it: in milli-ohm it would be 0.25, or give --accept=neutral:T3",
    ),
    Mistake(
        "a neutral in words", "transformers", "2.5", "block",
        'transformers.csv line 4, neutral: "block" is no number; write ohm, or blocked, or nothing',
    ),
    Mistake(
        "a line in per unit", "lines", "3.25", "0.00273",
        "lines.csv line 2, ohm: 0.00273 ohm over 111.2 km are 0.00002455 ohm per km, and not the 0.005 to "
        "0.15 that most lines of 345 kV have; mend it: per unit on 100 MVA at 345 kV it would be 3.249, or "
        "give --accept=line:N-S",
    ),
    Mistake(
        "a line in milli-ohm", "lines", "3.25", "3250",
        "lines.csv line 2, ohm: it is 3250, and not 0.001 to 1000 ohm; is it in micro-ohm, or per unit?",
    ),
    Mistake(
        "a line with a point too far", "lines", "3.25", "32.5",
        "lines.csv line 2, ohm: 32.5 ohm over 111.2 km are 0.2922 ohm per km, and not the 0.005 to 0.15 "
        "that most lines of 345 kV have; mend it, or give --accept=line:N-S",
    ),
    Mistake(
        "a line without a resistance", "lines", "3.25", "",
        "lines.csv line 2, ohm: a number is missing; write one with a decimal point",
    ),
    Mistake(
        "a resistance below 0", "lines", "3.25", "-3.25",
        "lines.csv line 2, ohm: it is -3.25, and not 0.001 to 1000 ohm; is it in micro-ohm, or per unit?",
    ),
    Mistake(
        "a resistance with its unit", "lines", "3.25", "3.25 ohm",
        'lines.csv line 2, ohm: "3.25 ohm" is no number; write one with a decimal point',
    ),
    Mistake(
        "a formula that a spreadsheet couldn't reckon", "lines", "3.25", "#REF!",
        'lines.csv line 2, ohm: "#REF!" is no number; write one with a decimal point',
    ),
    Mistake(
        "an exponent without end", "lines", "3.25", "1e999",
        "lines.csv line 2, ohm: it is 1e999, and not 0.001 to 1000 ohm; is it in micro-ohm, or per unit?",
    ),
    Mistake(
        "a decimal comma in a table of commas", "lines", "3.25", "3,25",
        "lines.csv line 2: it has 10 cells, and not 9: "
        "name,from,to,zone,ohm,north_km,east_km,capacitor,note; a comma in a cell needs quotation marks, "
        "and a number a point",
    ),
    Mistake(
        "the same in quotes", "lines", "3.25", '"3,25"',
        'lines.csv line 2, ohm: "3,25" is no number; write one with a decimal point',
    ),
    Mistake(
        "a thousands separator", "buses", "N345,North,345", "N345,North,345 000",
        'buses.csv line 2, kv: "345 000" is no number; write one with a decimal point',
    ),
    Mistake(
        "a date in place of a number", "lines", "3.25", "3-Feb",
        'lines.csv line 2, ohm: "3-Feb" is no number; write one with a decimal point',
    ),
    Mistake(
        "volts in place of kilovolts", "buses", "N345,North,345", "N345,North,345000",
        "buses.csv line 2, kv: it is 345000, and not 1 to 2000 kV; is it in volts?",
    ),
    Mistake(
        "a bus of another voltage", "buses", "E345,East,345", "E345,East,34.5",
        "lines.csv line 3, to: the line joins a bus of 345 kV to one of 34.5 kV; write another bus, or "
        "mend kv in buses.csv; so also in line 4",
    ),
    Mistake(
        "a rated voltage with a digit too few", "transformers", "T3,delta-wye,S345,,362", "T3,delta-wye,S345,,36.2",
        "transformers.csv line 4, high_kv: it is 36.2, at a bus of 345 kV; a rated voltage is within a "
        "tenth of its bus: mend one of the two, or give --accept=volts:T3",
    ),
    Mistake(
        "a line between two voltages", "lines", "N-S,N345,S345", "N-S,N345,S138",
        "lines.csv line 2, to: the line joins a bus of 345 kV to one of 138 kV; write another bus, or mend "
        "kv in buses.csv",
    ),
    Mistake(
        "a line from a bus to itself", "lines", "N-S,N345,S345", "N-S,N345,N345",
        'lines.csv line 2, to: it is "N345", as from is; write the bus at the other end',
    ),
    Mistake(
        "a bus that isn't there", "lines", "N-S,N345,S345", "N-S,N345,S346",
        'lines.csv line 2, to: "S346" is not in buses.csv; is it S345?',
    ),
    Mistake(
        "a substation that isn't there", "buses", "N345,North,345", "N345,Nort,345",
        'buses.csv line 2, substation: "Nort" is not in substations.csv; is it North?',
        "transformers.csv line 2, low: it is in North, and high in Nort; a unit has its buses in one substation",
    ),
    Mistake(
        "a third winding at the bus of the high one", "transformers", "0.19,,YNa0d1,,,", "0.19,,YNa0yn0,N345,345,0.05",
        "transformers.csv line 2, third: it is N345, as high is; write a bus for each side",
    ),
    Mistake(
        "a low winding at the bus of the high one", "transformers", "T2,wye-wye,S345,S138,345,138,",
        "T2,wye-wye,S345,S345,345,345,",
        "transformers.csv line 3, low: it is S345, as high is; write a bus for each side",
    ),
    Mistake(
        "a third winding of a delta-wye", "transformers", "2.5,YNd1,,,", "2.5,YNd1,S138,138,0.05",
        "transformers.csv line 4, third: it is S138, third_kv is 138, third_ohm is 0.05, and a unit of kind delta-wye "
        "has no use for them; leave them empty, or look at kind: this one uses high, high_kv, high_ohm, neutral",
    ),
    Mistake(
        "a third winding of a reactor", "transformers", "T4,", "R1,reactor,N345,,,,1.2,,,,,,N138,138,0.05,\nT4,",
        "transformers.csv line 5, third: it is N138, third_kv is 138, third_ohm is 0.05, and a unit of kind reactor "
        "has no use for them; leave them empty, or look at kind: this one uses high, high_ohm, neutral",
    ),
    Mistake(
        "a kind of the case with a third winding", "transformers", "T1,auto,", "T1,auto-wye,",
        'transformers.csv line 2, kind: "auto-wye" is none of delta-wye, wye-wye, auto, delta-delta, reactor; write one '
        "of these; a third earthed winding is auto or wye-wye with third, third_kv and third_ohm",
    ),
    Mistake(
        "a zone that isn't there", "lines", "upland,3.25", "uplands,3.25",
        'lines.csv line 2, zone: "uplands" is not in zones.csv; is it upland?',
    ),
    Mistake(
        "a line without a zone", "lines", "upland,3.25", ",3.25",
        "lines.csv line 2, zone: it is empty; write one of upland, coast, or add a table polygons.csv",
    ),
    Mistake(
        "a name with a blank", "lines", "N-S,", "N S,",
        'lines.csv line 2, name: "N S" is no name of a case; allowed are 1 to 32 letters, digits and _ - .',
    ),
    Mistake(
        "a name of 33 letters", "lines", "N-S,", "NNNNNNNNNNNNNNNNNNNNNNNNNNNNNNNNN,",
        'lines.csv line 2, name: "NNNNNNNNNNNNNNNNNNNNNNNNNNNNNNNNN" is no name of a case; allowed are 1 '
        "to 32 letters, digits and _ - .",
    ),
    Mistake(
        "a name that is taken", "lines", "N-S,", "N-E,",
        'lines.csv line 3, name: "N-E" is taken by lines.csv line 2; leave one of the two, or give '
        "parallel ones a name each, as X-1 and X-2",
    ),
    Mistake(
        "a name of another table", "transformers", "T1,auto", "low,auto",
        'transformers.csv line 2, name: "low" is taken by lines.csv line 5; leave one of the two, or give '
        "parallel ones a name each, as X-1 and X-2",
    ),
    Mistake(
        "a span with its sign turned", "lines", "0,71.7", "0,-71.7",
        "lines.csv line 3, east_km: it is -71.7, and by the coordinates 71.696; look at its sign, and at "
        "from and to, or give --accept=span:N-E",
    ),
    Mistake(
        "a span in metres", "lines", "0,71.7", "0,71700",
        "lines.csv line 3, east_km: it is 71700, and not -1000 to 1000 km; is it in metres?",
    ),
    Mistake(
        "half a span", "lines", "0,71.7", ",71.7",
        "lines.csv line 3, north_km: it is empty, and the other part of the span is given; write both or neither",
    ),
    Mistake(
        "a longitude without its sign", "substations", "50.0,-99.0", "50.0,99.0",
        "lines.csv line 3, east_km: it is 71.7, and by the coordinates -11543; look at its sign, and at "
        "from and to, or give --accept=span:N-E",
        "lines.csv line 4: its ends lie 11662.308 km apart to the east, and not up to 1000; look at the "
        "signs and the coordinates of both substations",
    ),
    Mistake(
        "a latitude in hundredths", "substations", "50.0,-99.0", "5000,-99.0",
        "substations.csv line 4, latitude: it is 5000, and not -90 to 90 degrees; is it in hundredths?",
    ),
    Mistake(
        "two substations at one place", "substations", "50.0,-99.0", "50.0,-100.0",
        "lines.csv line 3, east_km: it is 71.7, and by the coordinates 0; look at its sign, and at from "
        "and to, or give --accept=span:N-E",
    ),
    Mistake(
        "latitude and longitude changed over", "substations", "50.0,-99.0", "-99.0,50.0",
        "substations.csv line 4, latitude: it is -99.0, and not -90 to 90 degrees; is it in hundredths?",
    ),
    Mistake(
        "a bus in another substation", "buses", "E345,East,345", "E345,North,345",
        "substations.csv line 4: no bus is in it; look at the column substation of the buses, or leave the "
        "row out, or give --accept=unused:East",
        "lines.csv line 3, east_km: it is 71.7, and by the coordinates 0; look at its sign, and at from "
        "and to, or give --accept=span:N-E",
    ),
    Mistake(
        "a bus that nothing is at", "buses", "E345,East,345", "E345,East,345\nN69,North,69",
        "buses.csv line 7: no line and no transformer is at it; look at their buses, or leave the row out, "
        "or give --accept=unused:N69",
    ),
    Mistake(
        "a substation without a bus", "substations", "East,50.0,-99.0,", "East,50.0,-99.0,,\nWest,50,-98,0.3",
        "substations.csv line 5: no bus is in it; look at the column substation of the buses, or leave the "
        "row out, or give --accept=unused:West",
    ),
    Mistake(
        "a geomagnetic latitude in hundredths", "zones", "57.30", "5730",
        "zones.csv line 2, geomagnetic_latitude: it is 5730, and not 0 to 90 degrees; is it in hundredths, "
        "or a southern one with its sign?",
    ),
    Mistake(
        "a southern geomagnetic latitude", "zones", "57.30", "-57.3",
        "zones.csv line 2, geomagnetic_latitude: it is -57.3, and not 0 to 90 degrees; is it in "
        "hundredths, or a southern one with its sign?",
    ),
    Mistake(
        "a beta in hundredths", "zones", "0.85", "85",
        "zones.csv line 2, beta: it is 85, and not 0.01 to 1.5 as a factor; is it in hundredths?",
    ),
    Mistake(
        "a beta of three decimals by the table", "zones", "0.85", "0.855",
        "zones.csv line 2, beta: it is 0.855, and a case has two decimals of it; round it the way that you "
        "mean, or choose --alpha=formula or a number",
    ),
    Mistake(
        "an alpha by the table below the formula", "zones", "57.30", "49.8",
        "zones.csv line 2, geomagnetic_latitude: alpha is 0.3 by the program's table, and 0.3070 by the "
        "formula; currents come out too small; choose --alpha=formula, or write a column alpha, or give "
        "--accept=alpha:upland",
        "zones.csv line 2, geomagnetic_latitude: it is 49.8, and the stations of the zone lie at 57.0 to 58.0 degrees as seen "
        "from the pole of the earth's dipole; their geographic latitude is 49.0 to 50.0: is it that one; look up the "
        "geomagnetic one of the year, or give --accept=latitude:upland",
    ),
    Mistake(
        "a kind in capitals", "transformers", "T1,auto", "T1,Auto",
        'transformers.csv line 2, kind: "Auto" is none of delta-wye, wye-wye, auto, delta-delta, reactor; '
        "write one of these",
    ),
    Mistake(
        "a vector group of another kind", "transformers", "YNyn0", "YNd1",
        'transformers.csv line 3, vector_group: "YNd1" is not of kind wye-wye: it goes with delta-wye; '
        "mend one of the two",
    ),
    Mistake(
        "an autotransformer as two windings", "transformers", "YNa0d1", "YNyn0d1",
        'transformers.csv line 2, vector_group: "YNyn0d1" is not of kind auto: it goes with wye-wye; mend '
        "one of the two",
    ),
    Mistake(
        "a third winding in the group alone", "transformers", "YNa0d1", "YNa0yn0",
        'transformers.csv line 2, vector_group: "YNa0yn0" has a third earthed winding; write third, '
        "third_kv and third_ohm",
    ),
    Mistake(
        "a group without an earthed wye", "transformers", "YNyn0", "Yd1",
        'transformers.csv line 3, vector_group: "Yd1" is not of kind wye-wye: it goes with delta-delta; '
        "mend one of the two",
    ),
    Mistake(
        "an earthed wye on the low side", "transformers", "YNd1", "Dyn1",
        'transformers.csv line 4, vector_group: "Dyn1" is earthed on its low side, so high is its low bus '
        "here, and its verdict means nothing; write kind reactor, which has no verdict, without high_kv and "
        "vector_group, or give --accept=vector:T3",
    ),
    Mistake(
        "an earthed wye that is listed alone", "transformers", "Dyn11", "YNd11",
        'transformers.csv line 5, vector_group: "YNd11" is not of kind delta-delta: it goes with '
        "delta-wye; mend one of the two",
    ),
    Mistake(
        "a neutral that isn't earthed", "transformers", "YNa0d1", "Ya0d1",
        'transformers.csv line 2, vector_group: "Ya0d1" has no earthed neutral; write blocked as neutral, or YNa..',
    ),
    Mistake(
        "no vector group", "transformers", "YNyn0", "star",
        'transformers.csv line 3, vector_group: "star" is no vector group; allowed are groups of YN, Y, D, '
        "Z and A, as YNd1, YNyn0 and YNa0d1",
    ),
    Mistake(
        "sides changed over", "transformers", "T1,auto,N345,N138,345,138", "T1,auto,N138,N345,138,345",
        "transformers.csv line 2, low_kv: it is 345, above high_kv, 138; is the row turned?",
    ),
    Mistake(
        "a unit in two substations", "transformers", "T2,wye-wye,S345,S138", "T2,wye-wye,S345,N138",
        "transformers.csv line 3, low: it is in North, and high in South; a unit has its buses in one substation",
    ),
    Mistake(
        "a low side of a delta-wye", "transformers", "T3,delta-wye,S345,,362", "T3,delta-wye,S345,S138,362",
        "transformers.csv line 4, low: it is S138, and a unit of kind delta-wye has no use for it; leave "
        "it empty, or look at kind: this one uses high, high_kv, high_ohm, neutral",
    ),
    Mistake(
        "the bus and the voltage of a delta", "transformers", "S345,,362,,", "S345,S138,362,138,",
        "transformers.csv line 4, low: it is S138, low_kv is 138, and a unit of kind delta-wye has no use for them; "
        "leave them empty, or look at kind: this one uses high, high_kv, high_ohm, neutral",
    ),
    Mistake(
        "a unit without a bus", "transformers", "T3,delta-wye,S345,,362", "T3,delta-wye,,,362",
        "transformers.csv line 4, high: it is empty; write a name of buses.csv",
    ),
    Mistake(
        "a winding without a resistance", "transformers", "0.42,0.07", "0.42,",
        "transformers.csv line 3, low_ohm: a number is missing; write one with a decimal point",
    ),
    Mistake(
        "a capacitor in other words", "lines", ",yes,", ",x,",
        'lines.csv line 4, capacitor: "x" is neither yes nor empty; write one of these',
    ),
    Mistake(
        "a row that was cut", "lines", ",yes,\n", ",yes\n",
        "lines.csv line 4: it has 8 cells, and not 9: name,from,to,zone,ohm,north_km,east_km,capacitor,note",
    ),
    Mistake(
        "a row with a cell too many", "buses", "N345,North,345", "N345,North,345,x",
        "buses.csv line 2: it has 4 cells, and not 3: name,substation,kv; a comma in a cell needs "
        "quotation marks, and a number a point",
    ),
    Mistake(
        "a quotation mark without an end", "lines", "low,N138", '"low,N138',
        "lines.csv line 5: it is no table of commas here (unexpected end of data); look at the quotation marks",
    ),
    Mistake(
        "a head with a slip", "lines", "name,from,to", "name,form,to",
        'lines.csv line 1: it has no column from, and "form" is none of its columns; allowed are '
        "name,from,to,zone,ohm,north_km,east_km,capacitor, and per_unit,parallel,source,note",
    ),
    Mistake(
        "a column that isn't one", "lines", "capacitor,note", "capacitor,length",
        'lines.csv line 1: "length" is none of its columns; allowed are '
        "name,from,to,zone,ohm,north_km,east_km,capacitor, and per_unit,parallel,source,note",
    ),
    Mistake(
        "a column that stands twice", "lines", "capacitor,note", "capacitor,ohm",
        'lines.csv line 1: the column "ohm" stands there twice; leave one of the two',
    ),
    Mistake(
        "semicolons in the head alone", "buses", "name,substation,kv", "name;substation;kv",
        "buses.csv line 2: it has 1 cell, and not 3: name,substation,kv; so also in lines 3, 4, 5, 6",
    ),
)
PSSE = (
    Mistake(
        "an old version", "raw", " 33,", " 29,",
        "net.raw line 1, REV: the version is 29; 30 to 36 are read. Save it as one of these",
    ),
    Mistake(
        "no base", "raw", " 100.0,", " 0,",
        'net.raw line 1, SBASE: "0" is no base; write the MVA of per unit, as 100.0',
    ),
    Mistake(
        "a voltage with its unit", "raw", "345.0,1\n2,", "345kV,1\n2,",
        'net.raw line 4, BASKV: "345kV" is no number; write one with a decimal point',
    ),
    Mistake(
        "a bus twice", "raw", "4,'SOUTH A  ',345.0,1", "1,'SOUTH A  ',345.0,1",
        "net.raw line 7, I: the bus 1 stands in line 4 already; leave one of the two",
    ),
    Mistake(
        "a bus that isn't there", "raw", "1,4,'1 ',0.0025", "1,9,'1 ',0.0025",
        "net.raw line 18: there is no bus 9 in net.raw; write its record",
    ),
    Mistake(
        "a word for a number", "raw", "5,7,'1 ',0.0,", "5,7,'1 ',x,",
        'net.raw line 21, R: "x" is no number; write one with a decimal point',
    ),
    Mistake(
        "ohm in place of per unit", "raw", "1,-7,'1 ',0.0025", "1,-7,'1 ',2.97",
        "net.raw line 19, R: it is 3535.0425 ohm, and not 0.001 to 1000; write ohm a phase",
    ),
    Mistake(
        "per cent in place of per unit", "raw", "1,-7,'1 ',0.0025", "1,-7,'1 ',0.25",
        "net.raw line 19, R: 297.6 ohm over 71.7 km are 4.15 ohm per km, and not the 0.005 to 0.15 that "
        "most lines of 345 kV have",
    ),
    Mistake(
        "a quote without an end", "raw", "4,5,'1 ',0.00008", "4,5,'1 ','0.00008",
        "net.raw line 20: \"4,5,'1 ','0.00008,0.001,0.0,0,0,0,0,0,0,0,1,1,0\" has no fields that can be read; "
        "look at its quotes, two for each string",
    ),
    Mistake(
        "a branch in place of a transformer", "raw", "1,4,'1 ',0.0025", "2,4,'1 ',0.0025",
        "net.raw line 18: it joins a bus of 138.0 kV to one of 345.0 kV; look at BASKV of both",
    ),
    Mistake(
        "a latitude in hundredths", "gic", "50.0,-100.0,0.2", "5000,-100.0,0.2",
        "net.gic line 2, LATITUDE: it is 5000, and not -90 to 90 degrees",
    ),
    Mistake(
        "a longitude without its sign", "gic", "50.0,-100.0,0.2", "50.0,100.0,0.2",
        "net.raw line 18: its ends lie 11589.872 km apart to the east, and not up to 1000; look at the "
        "coordinates of NORTH and SOUTH",
        "net.raw line 19: its ends lie 11543.039 km apart to the east, and not up to 1000; look at the "
        "coordinates of NORTH and EAST STATION",
    ),
    Mistake(
        "a ground of 180", "gic", "50.0,-100.0,0.2", "50.0,-100.0,180",
        "net.gic line 2, RG: 180 ohm is not the 0.02 to 5 ohm that most grounds at 345.0 kV have: in "
        "milli-ohm it would be 0.18",
    ),
    Mistake(
        "a ground of 0", "gic", "50.0,-100.0,0.2", "50.0,-100.0,0",
        "net.gic line 2, RG: it is 0, which programs take in different ways; write its ohm, or give --ungrounded=0 where "
        "it has no ground",
    ),
    Mistake(
        "a substation that isn't there", "gic", "4,2\n", "4,9\n",
        "net.gic line 9, SUBSTATION: there is no substation 9 in this file; write its record",
    ),
    Mistake(
        "a bus without a substation", "gic", "4,2\n", "",
        "net.raw line 18: the bus 4 is in no substation of net.gic; write its record there",
    ),
    Mistake(
        "a winding of 90 ohm", "gic", "0.2,0.1,0.05", "90,0.1,0.05",
        "net.gic line 15, WRI: 90 ohm is not the 0.01 to 5 ohm that most windings of 345 kV have: in "
        "milli-ohm it would be 0.09",
    ),
    Mistake(
        "a winding of 0", "gic", "0.2,0.1,0.05", "0,0.1,0.05",
        "net.gic line 15, WRI: it is 0, which means: take it from the power flow; --windings=half takes half of R1-2 for "
        "each winding, or write ohm a phase",
    ),
    Mistake(
        "a winding in per unit", "gic", "0.2,0.1,0.05", "2e-4,0.1,0.05",
        "net.gic line 15, WRI: it is 0.0002 ohm, and not 0.001 to 1000; write ohm a phase",
    ),
    Mistake(
        "too few windings", "gic", "'YNa0yn0'", "'YNyn0'",
        'net.gic line 15, VECGRP: "YNyn0" is of fewer windings than the unit has buses, 3; write a letter for each',
    ),
    Mistake(
        "no vector group", "gic", "'YNa0yn0'", "'WYE'",
        'net.gic line 15, VECGRP: "WYE" is no vector group; allowed are groups of YN, Y, D, Z and A, as '
        "YNd1, YNyn0 and YNa0d1",
    ),
    Mistake(
        "a transformer without resistances", "gic", "1,2,3,'1 ',0.2", "1,2,3,'2 ',0.2",
        "net.raw line 25: the transformer 1-2-3 '1' has no record in net.gic; write it there",
    ),
    Mistake(
        "a neutral in milli-ohm", "gic", "'YNd1',1,0.6,2.5", "'YNd1',1,0.6,2500",
        "net.gic line 16, GRDRI: it is 2500 ohm, and not 0.001 to 1000; write ohm",
    ),
    Mistake(
        "a neutral of a hundred times", "gic", "'YNd1',1,0.6,2.5", "'YNd1',1,0.6,250",
        "net.gic line 16, GRDRI: 250 ohm is not the 0.001 to 50 ohm that most neutrals have: in milli-ohm it would be 0.25",
    ),
    Mistake(
        "a line in milli-ohm", "gic", "1,4,'1 ',3.25", "1,4,'1 ',325",
        "net.gic line 21, RBRN: 325 ohm over 111.2 km are 2.922 ohm per km, and not the 0.005 to 0.15 that "
        "most lines of 345 kV have",
    ),
    Mistake(
        "another circuit", "gic", "1,4,'1 ',3.25", "1,4,'9 ',3.25",
        "net.gic line 21: there is no branch of these buses and this circuit in net.raw",
    ),
    Mistake(
        "coordinates in another unit", "gic", "'NORTH',0,", "'NORTH',1,",
        "net.gic line 2, UNIT: it is 1; degrees are read, which is 0",
    ),
    Mistake(
        "two substations at one place", "gic", "2,'SOUTH',0,49.0,-100.0", "2,'SOUTH',0,50.0,-100.0",
        "net.raw line 18: L1-4-1 has a span of less than 100 m: look at the coordinates of its ends",
        "zones.csv: zone all: the geomagnetic latitude is 60 degrees, 2.0 off the 57.9 to 58.0 of its stations as seen from the "
        "pole of the earth's dipole: is it that of this region and of this year?",
    ),
    Mistake(
        "a beta in hundredths", "zones", "60,0.81", "60,81",
        "zones.csv line 2, beta: it is 81, and not 0.01 to 1.5 as a factor; is it in hundredths?",
    ),
)
# The first two lines of the sample screen are those of its head, and the third is that of HF-G1.
SCREEN = (
    Mistake(
        "a report that is cut", "screen", "\nend\n", "\n",
        'report.txt line 36: the report is cut: it ends before its line "end"; ask the program for it again',
    ),
    Mistake(
        "a verdict that is none", "screen", "152724 152726 reaches\ntransformer HF-G2", "152724 152726 reach\ntransformer HF-G2",
        'report.txt line 3: "transformer HF-G1 north 146796 146797 east -42140 -42139 worst 152724 152726 reach" is not of '
        'the form "transformer NAME north LO HI east LO HI worst LO HI VERDICT"; take the report as it was printed',
    ),
    Mistake(
        "an interval that is turned", "screen", "HF-G1 north 146796 146797", "HF-G1 north 146797 146796",
        'report.txt line 3: "transformer HF-G1 north 146797 146796 east -42140 -42139 worst 152724 152726 reaches" is not '
        'of the form "transformer NAME north LO HI east LO HI worst LO HI VERDICT"; take the report as it was printed',
    ),
    Mistake(
        "a head of no report", "screen", "screen\n", "screens\n",
        'report.txt line 1: "screens" begins no report; a report begins with one of volts, list, check, field, study, '
        "screen, outage, series, make, certificate, recheck, review, robust",
    ),
    Mistake(
        "two reports in one file", "screen", "\nend\n", "\nend\nscreen\n",
        'report.txt line 37: something follows behind "end"; take one report alone',
    ),
    Mistake(
        "a threshold with a comma", "screen", "threshold 75000", "threshold 75,000",
        'report.txt line 2: "width 100 threshold 75,000 field 8000" is not of the form "width COUNT threshold COUNT field '
        'COUNT"; take the report as it was printed',
    ),
    Mistake(
        "a transformer twice", "screen", "transformer HF-G2", "transformer HF-G1",
        "report.txt line 35: HF-G1 has 2 lines of one kind above here, and a report has one; take one report alone",
    ),
)
OTHER_REPORTS = (
    ("an empty file", b"", "it is empty: the program ended without a report, and told why on its error stream"),
    (
        "the line of a fault",
        b"gicstudy: case: not toml\n",
        'line 1: "gicstudy: case: not toml" is what the program tells where it has no report; see docs/FAULTS.md',
    ),
    ("UTF-16", "\ufeffscreen\n".encode("utf-16"), "it is in UTF-16, as `>` of some shells of Windows writes it"),
)
EVENTS = (
    ("an item that isn't there", "e,Q,open", "line 2, item: \"Q\" isn't a line, a transformer, or a substation with a "
     "ground, as open takes; look at the names of the case"),
    ("another action", "e,K,trip", 'line 2, action: "trip" is none of open, close, block, unblock; write one of these'),
    ("no action", "e,K,", 'line 2, action: "" is none of open, close, block, unblock; write one of these'),
    ("no event", ",K,open", "line 2, event: it is empty; give each event a name"),
    ("an item twice", "e,K,open\ne,K,close", "line 3, item: K is in this event already, by line 2; leave one of the two"),
    ("a line that is blocked", "e,K,block", "line 2, item: \"K\" isn't a transformer with a neutral resistor, as block "
     "takes; look at the names of the case"),
    ("a row that is cut", "e,K", "line 2: it has 2 cells, and not 3: event,item,action"),
    ("no row", "", "line 1: it has no event; write a row for each switching of an event"),
)
# What nothing can see, by the words that desk/README.md has for it.
UNSEEN = (
    Mistake("a number that is wrong and usual", "lines", "3.25", "2.35"),
    Mistake("a line or a unit that is missing", "lines", "low,N138,S138,coast,8.9,,,,\n", ""),
    Mistake("one that stands there twice under two names", "lines", "N-S,N345,S345,upland,3.25,,,,\n",
            "N-S,N345,S345,upland,3.25,,,,\nN-Z,N345,S345,upland,3.25,,,,\n"),
    Mistake("the bus of another station at the same voltage", "transformers", "T3,delta-wye,S345", "T3,delta-wye,N345"),
    Mistake("the zone of a neighbour where there are no polygons", "lines", "coast,8.9", "upland,8.9"),
    Mistake("a station a little off its place", "substations", "49.0,", "49.05,"),
    Mistake("two resistances of one unit changed over", "transformers", "0.24,0.19", "0.19,0.24"),
)
# fmt: on


class Listed(unittest.TestCase):
    def test_each_mistake_of_the_list_has_its_test(self) -> None:
        named = r"`(test_\w+\.py)` `(test_\w+)`"
        rows = re.findall(rf"^\| ([0-9]+) \|.*\| ({named}(?:, {named})*) \|$", (TESTS / "MISTAKES.md").read_text(), re.M)
        self.assertEqual([int(row[0]) for row in rows], list(range(1, len(rows) + 1)))
        self.assertEqual(len(rows), (TESTS / "MISTAKES.md").read_text().count("\n| ") - 1)
        self.assertGreaterEqual(len(rows), 30)
        for row in rows:
            for file, name in re.findall(named, row[1]):
                self.assertIn(f"def {name}(", (TESTS / file).read_text())


class Case(DeskTest):
    def run_case(self, texts: dict[str, str]) -> tuple[int, list[str]]:
        for name, text in texts.items():
            self.file(f"{name}.csv", text)
        status, out, err = desk("case", self.folder, f"--out={self.folder / 'case.toml'}", "--force", "--alpha=table")
        lines = plain(out + err, f"{self.folder}/")
        return status, [line for line in lines if "intervals hold for this case" not in line]  # (that of its rounding)

    def test_mistakes_in_tables(self) -> None:
        self.assertEqual(self.run_case(TABLES), (0, ["case.toml is made"]))
        (self.folder / "case.toml").unlink()
        for mistake in CASE:
            with self.subTest(mistake.what):
                self.assertEqual(self.run_case(mistake.in_texts(TABLES)), (1, mistake.told))
                self.assertFalse((self.folder / "case.toml").exists())

    def test_what_nothing_can_see_is_named(self) -> None:
        readme = re.sub(r"\s+", " ", (TOP / "desk" / "README.md").read_text())
        for mistake in UNSEEN:
            with self.subTest(mistake.what):
                self.assertEqual(self.run_case(mistake.in_texts(TABLES)), (0, ["case.toml is made"]))
                self.assertTrue(mistake.what in readme, mistake.what)


class Psse(DeskTest):
    """A mistake is refused, or told beside the case that is made."""

    def run_psse(self, texts: dict[str, str]) -> tuple[int, list[str]]:
        raw, gic = self.file("net.raw", texts["raw"]), self.file("net.gic", texts["gic"])
        zones, out = self.file("zones.csv", texts["zones"]), self.folder / "case.toml"
        words = (f"--zones={zones}", "--beyond=leave", f"--out={out}", "--force")
        status, shown, err = desk("psse", raw, gic, *words)
        return status, plain(shown + err, f"{self.folder}/")

    def test_mistakes_in_the_files_of_a_power_flow(self) -> None:
        texts = {"raw": RAW, "gic": GIC, "zones": ZONES}
        status, always = self.run_psse(texts)
        self.assertEqual(status, 0)
        for mistake in PSSE:
            with self.subTest(mistake.what):
                _, told = self.run_psse(mistake.in_texts(texts))
                self.assertEqual([line for line in told if line not in always], mistake.told)


class Reports(DeskTest):
    SCREEN = (REPORTS / "region_screen.txt").read_text()

    def test_mistakes_in_a_report(self) -> None:
        other = self.file("other.txt", self.SCREEN)
        for mistake in SCREEN:
            report = self.file("report.txt", mistake.in_texts({"screen": self.SCREEN})["screen"])
            for words in (("csv", report), ("compare", report, other), ("compare", other, report)):
                with self.subTest(mistake.what, command=words[0]):
                    lines = [line.replace(f"{self.folder}/", "") for line in self.refused(*words)]
                    self.assertEqual(lines, mistake.told)

    def test_what_is_no_report(self) -> None:
        other = self.file("other.txt", self.SCREEN)
        for what, data, words in OTHER_REPORTS:
            report = self.file("report.txt", data)
            for command in (("csv", report), ("compare", other, report)):
                with self.subTest(what, command=command[0]):
                    (line,) = self.refused(*command)
                    self.assertTrue(line.startswith(f"{report}"), line)
                    self.assertIn(words, line)

    def test_a_report_of_another_mode_and_of_another_network(self) -> None:
        here, field = self.file("here.txt", self.SCREEN), REPORTS / "region_field.txt"
        (line,) = self.refused("compare", here, field)
        words = "it is a report of field; compare takes two of screen, two of outage, or one of each"
        self.assertEqual(line, f"{field} line 1: {words}")
        shown = self.done("compare", here, REPORTS / "valley_screen.txt")
        self.assertIn("0 transformers in both reports", shown)
        self.assertIn("in the report after alone: N-T1 M-T1 H-T1\n", shown)


class Outages(DeskTest):
    def setUp(self) -> None:
        super().setUp()
        patch = mock.patch.dict(os.environ, {"FAKE_REPORTS": str(self.folder)})
        patch.start()
        self.addCleanup(patch.stop)
        self.enterContext(contextlib.chdir(self.folder))
        self.file("case.toml", "")
        reports = {"list": LIST, "volts": VOLTS, "outage": OUTAGE, "screen": screen(BOTH, BOTH)}
        for name, text in {**reports, "screen+K": screen(ONE, ONE)}.items():
            self.file(f"{name}.txt", text)

    def test_mistakes_in_a_table_of_events(self) -> None:
        for what, rows, words in EVENTS:
            with self.subTest(what):
                events = self.file("events.csv", f"{HEADS}{rows}\n")
                (line,) = self.refused("outages", "case.toml", f"--program={FAKE}", f"--events={events}")
                self.assertEqual(line, f"{events} {words}")


def plain(text: str, folder: str) -> list[str]:
    """The lines without the name of the command and of the folder; none of them is of a traceback."""
    lines = [line.removeprefix("gicdesk: ").replace(folder, "") for line in text.splitlines()]
    assert not any(line.startswith("Traceback") for line in lines), text
    return lines


class Counted(unittest.TestCase):
    def test_there_are_sixty_and_more(self) -> None:
        self.assertGreaterEqual(sum(map(len, (CASE, PSSE, SCREEN, OTHER_REPORTS, EVENTS, UNSEEN))), 120)


if __name__ == "__main__":
    unittest.main()
