# A storm turned as a whole, until its strongest step points along a transformer's worst orientation.
#
#     awk -f turn.awk AXIS.txt PEAK.txt STORM.csv
#
# AXIS.txt has the transformer's currents to the north and to the east, PEAK.txt the strongest step: its time and field.
BEGIN { FS = "," }
FNR == 1 { pass++ }
pass == 1 { split($0, axis, " "); next }
pass == 2 { split($0, peak, " "); angle = atan2(axis[2], axis[1]) - atan2(peak[3], peak[2]); next }
FNR == 1 { print; next }
{ printf "%d,%.0f,%.0f\n", $1, $2 * cos(angle) - $3 * sin(angle), $2 * sin(angle) + $3 * cos(angle) }
