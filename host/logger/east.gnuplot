# The eastern channel of `table` as the file `picture`. An empty cell is no number, so the line breaks there.
set terminal pngcairo size 1200,480
set output picture
set datafile separator "\t"
set key off
set title "The eastern station in the storm"
set xlabel "second"
set ylabel "microvolts per kilometre"
sample(text) = strlen(text) > 0 ? real(text) : NaN
plot table skip 1 using 1:(sample(stringcolumn(4))) with lines, \
     table skip 1 using 1:(sample(stringcolumn(4)) == 0 ? 0 : NaN) with points pointtype 6
