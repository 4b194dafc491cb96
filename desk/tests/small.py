"""A small network as tables of `gicdesk case`: three substations in two zones, three lines, four units."""

TABLES = {
    "zones": """\
name,geomagnetic_latitude,beta,note
upland,57.30,0.85,
coast,55.60,0.79,on sediments
""",
    "substations": """\
name,latitude,longitude,ground_ohm,note
North,50.0,-100.0,0.2,
South,49.0,-100.0,0.3,
East,50.0,-99.0,,a switching station
""",
    "buses": """\
name,substation,kv
N345,North,345
N138,North,138
S345,South,345
S138,South,138
E345,East,345
""",
    "lines": """\
name,from,to,zone,ohm,north_km,east_km,capacitor,note
N-S,N345,S345,upland,3.25,,,,
N-E,N345,E345,upland,2.1,0,71.7,,
S-E,S345,E345,coast,3.9,,,yes,
low,N138,S138,coast,8.9,,,,
""",
    "transformers": """\
name,kind,high,low,high_kv,low_kv,high_ohm,low_ohm,series_ohm,common_ohm,neutral,vector_group,third,third_kv,third_ohm,note
T1,auto,N345,N138,345,138,,,0.24,0.19,,YNa0d1,,,,
T2,wye-wye,S345,S138,345,138,0.42,0.07,,,,YNyn0,,,,
T3,delta-wye,S345,,362,,0.23,,,,2.5,YNd1,,,,a resistor
T4,delta-delta,S138,,138,,,,,,,Dyn11,,,,a load
""",
}
