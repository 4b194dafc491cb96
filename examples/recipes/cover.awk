# The times of a storm of time,zone,north,east at which a zone has no field, or a row of * replaces those in front of it.
NR == 1 || $2 == "" { next }
$2 == "*" && seen[$1] { print "time " $1 ": the row of * replaces the rows before it" }
{ seen[$1] = 1; zones[$2] }
$2 == "*" { all[$1] = 1 }
!(($1, $2) in had) { had[$1, $2]; count[$1]++ }
END {
    delete zones["*"]
    for (zone in zones) many++
    for (time in seen) if (!all[time] && count[time] < many) print "time " time ": " count[time] " of " many " zones have a field"
}
