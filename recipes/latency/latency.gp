# How long frames wait under a rising load, from latency.csv in this folder: above their mean latency, with that of one
# queue, below the latency that 95 of 100 frames don't exceed. A point is a run, a line the mean of the runs, for each
# number of stations.
set datafile separator ","
set terminal svg size 900,900 font "sans-serif,14" background "white"
set output "latency.svg"
set multiplot layout 2,1
set xrange [0:1.25]
set logscale y
set yrange [0.1:2000]
set key left top title "stations"
set grid
set xlabel "share of the channel that the frames ask for"
count(i) = word(lengths, i) + 0
set ylabel "mean latency, milliseconds"
plot for [i=1:words(lengths)] "latency.csv" \
       using ($1 == count(i) ? $2 : NaN):10 smooth unique with lines lt i title word(lengths, i), \
     for [i=1:words(lengths)] "latency.csv" using ($1 == count(i) ? $2 : NaN):10 with points lt i pt 7 ps 0.3 notitle, \
     "latency.csv" using 2:14 smooth unique with lines lc "black" dt 2 title "one queue"
set ylabel "95th percentile of the latency, milliseconds"
plot for [i=1:words(lengths)] "latency.csv" \
       using ($1 == count(i) ? $2 : NaN):12 smooth unique with lines lt i title word(lengths, i), \
     for [i=1:words(lengths)] "latency.csv" using ($1 == count(i) ? $2 : NaN):12 with points lt i pt 7 ps 0.3 notitle
unset multiplot
