# The share of the channel by the number of stations, a line for each length of frame, from efficiency.csv in this
# folder: points are runs, dashed lines the formula with an interframe gap beside each frame.
set datafile separator ","
set terminal svg size 900,600 font "sans-serif,14" background "white"
set output "efficiency.svg"
set logscale x
set xrange [0.9:500]
set yrange [0:1.02]
set xlabel "stations that always have a frame to send"
set ylabel "share of the channel"
set key outside right top title "octets of a frame"
set grid
plot for [i=1:words(lengths)] "efficiency.csv" \
       using ($1 == word(lengths, i) + 0 ? $2 : NaN):7 with linespoints lt i pt 7 ps 0.6 title word(lengths, i), \
     for [i=1:words(lengths)] "efficiency.csv" \
       using ($1 == word(lengths, i) + 0 ? $2 : NaN):9 with lines lt i dt 2 notitle, \
     NaN with lines lc "black" dt 2 title "formula, with gap"
