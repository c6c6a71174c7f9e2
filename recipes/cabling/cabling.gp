# By how many bit times netsim leaves less to its limit than the standard to that of the path delay value, from
# stricter.csv in this folder: how many of the random plans, by the segments of their longest path.
set datafile separator ","
set terminal svg size 900,600 font "sans-serif,14" background "white"
set output "cabling.svg"
set xlabel "bit times by which netsim check is the stricter one"
set ylabel "plans"
set yrange [0:*]
set style fill solid 0.6 border -1
set style histogram rowstacked
set boxwidth 1
set key top left title "segments of the longest path"
set grid y
plot for [i=1:words(lengths)] "stricter.csv" \
       using ($1 + 0.5):(sum [c=i+1:words(lengths)+1] column(c)) with boxes title word(lengths, i)
