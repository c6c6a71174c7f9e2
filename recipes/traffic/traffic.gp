# What a channel makes of a rising load, from traffic.csv in this folder: above the share that is sent, below how long a
# frame waits in the mean. A point is a run, a line the mean of the runs, for each number of stations.
set datafile separator ","
set terminal svg size 900,900 font "sans-serif,14" background "white"
set output "traffic.svg"
set multiplot layout 2,1
set xrange [0:1.25]
set key left top title "stations"
set grid
set ylabel "share of the channel that is sent"
set yrange [0:1.05]
count(i) = word(lengths, i) + 0
plot for [i=1:words(lengths)] "traffic.csv" \
       using ($1 == count(i) ? $2 : NaN):10 smooth unique with lines lt i title word(lengths, i), \
     for [i=1:words(lengths)] "traffic.csv" using ($1 == count(i) ? $2 : NaN):10 with points lt i pt 7 ps 0.3 notitle, \
     x with lines lc "black" dt 2 title "all that is asked for"
set xlabel "share of the channel that the frames ask for"
set ylabel "mean wait of a frame, milliseconds"
set logscale y
set yrange [0.005:500]
plot for [i=1:words(lengths)] "traffic.csv" \
       using ($1 == count(i) ? $2 : NaN):12 smooth unique with lines lt i title word(lengths, i), \
     for [i=1:words(lengths)] "traffic.csv" using ($1 == count(i) ? $2 : NaN):12 with points lt i pt 7 ps 0.3 notitle
unset multiplot
