# The effective current of a transformer over a storm, from series.csv: seconds, the middle of the interval, half its width.
set terminal png size 900,500
set output "series.png"
set title "IB-A1 in the sample storm"
set xlabel "minutes"
set ylabel "effective current, A per phase"
set xrange [0:240]
set object rectangle from 97,graph 0 to 123,graph 1 behind fillcolor rgb "#e0e0e0" fillstyle solid noborder
set label "LK-IB is out" at 99,graph 0.2
set grid
set datafile separator ","
plot "series.csv" every ::1 using ($1 / 60):($2 - $3):($2 + $3) with filledcurves linecolor "orange" title "interval", \
     "" every ::1 using ($1 / 60):2 with linespoints pointtype 7 pointsize 0.5 linewidth 2 linecolor "navy" title "middle", \
     75 linecolor "black" title "75 A", -75 linecolor "black" notitle
