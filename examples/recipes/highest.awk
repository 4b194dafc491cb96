# The greatest current of a report of `series`, its time, and how many steps have 75 A or more at the upper end.
$1 == "step" { size = ($6 > -$5 ? $6 : -$5); if (size > most) { most = size; time = $4 } long += (size >= 75000) }
END { printf "%.1f A at %d s, %d steps of 75 A or more\n", most / 1000, time, long }
