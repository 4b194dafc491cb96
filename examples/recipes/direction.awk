# Each potential and current in a field of the bearing -v bearing=DEGREES, from reports of `field` of one strength to the
# north and to the east: the name, and the two ends, rounded outward.
#
#     awk -v bearing=DEGREES -f direction.awk NORTH.txt EAST.txt
function down(x) { x -= 0.000001; return int(x) - (x < int(x)) }
function up(x) { return -down(-x) }
function least(factor, low, high) { return factor * (factor < 0 ? high : low) }
BEGIN { bearing *= atan2(1, 1) / 45; north = cos(bearing); east = sin(bearing); number = "^-?[0-9]+$" }
$NF !~ number || $(NF - 1) !~ number { next }
{ item = $1 " " $2 (NF == 5 ? " " $3 : ""); low = $(NF - 1); high = $NF }
FNR == NR { north_low[item] = low; north_high[item] = high; next }
{ print item, down(least(north, north_low[item], north_high[item]) + least(east, low, high)),
              up(-least(-north, north_low[item], north_high[item]) - least(-east, low, high)) }
