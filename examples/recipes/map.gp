# Earthing currents on a map, from map_lines.txt (the two ends of each line) and map_grounds.txt (a name, its longitude, its
# latitude and the current into the earth in amperes).
set terminal png size 900,900
set output "map.png"
set title "Earthing currents in 4.8 V/km to the north and 6.4 V/km to the east"
set xlabel "longitude"
set ylabel "latitude"
set size ratio -1.52
set xrange [-40.4:-35.8]
plot "map_lines.txt" with lines linecolor "gray" notitle, \
     "map_grounds.txt" using 2:3:(sqrt(abs($4)) / 5) with points pointtype 7 pointsize variable \
         linecolor rgb "#4477aa" title "out of the earth", \
     "map_grounds.txt" using 2:($4 > 0 ? $3 : NaN):(sqrt(abs($4)) / 5) with points pointtype 7 pointsize variable \
         linecolor rgb "#cc6633" title "into the earth", \
     "map_grounds.txt" using 2:3:(sprintf("%s %.0f A", strcol(1), $4)) with labels offset 0,-1.2 font ",9" notitle
