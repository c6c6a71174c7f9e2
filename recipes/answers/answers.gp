# What a file over stop-and-wait gets while a flood asks for a share of the channel, from answers.csv in this folder: a
# point is a run, a line the mean of the runs, for each length of the flood's frames and each thinking time.
set datafile separator ","
set terminal svg size 900,600 font "sans-serif,14" background "white"
set output "answers.svg"
set xrange [-0.03:1.23]
set yrange [0:8.5]
set xlabel "share of the channel that the flood asks for"
set ylabel "throughput of the file, megabits a second"
set key below title "octets of the flood's frames, thinking time"
set grid
thinks = "100 200"
name(i, j) = sprintf("%s, %s half bits", word(lengths, i), word(thinks, j))
share(i, j) = (column(1) == word(lengths, i) + 0 && column(2) == word(thinks, j) + 0) ? column(3) : NaN
plot for [i=1:2] for [j=1:2] "answers.csv" using (share(i, j)):5 smooth unique with lines lt 2*i+j-2 title name(i, j), \
     for [i=1:2] for [j=1:2] "answers.csv" using (share(i, j)):5 with points lt 2*i+j-2 pt 7 ps 0.4 notitle
