# The time and the field of the strongest step of a storm of time,north,east.
BEGIN { FS = "," }
FNR > 1 && $2 ^ 2 + $3 ^ 2 > most { most = $2 ^ 2 + $3 ^ 2; time = $1; north = $2; east = $3 }
END { print time, north, east }
