# How long the longest stretch of each station and seed lasted, as a histogram, from capture-effect.csv in this folder.
set datafile separator ","
set terminal svg size 900,500 font "sans-serif,14" background "white"
set output "capture-effect.svg"
wide = 20
set boxwidth 0.4 * wide
set style fill solid 0.7
set xrange [0:*]
set yrange [0:*]
set xlabel "longest time for which the station had the channel to itself, in milliseconds"
set ylabel "stations of runs"
set key right top title "octets of a frame"
set grid y
bin(x, i) = wide * (floor(x / wide) + 0.08 + 0.42 * i)
plot for [i=1:words(lengths)] "capture-effect.csv" \
  using ($1 == word(lengths, i) + 0 ? bin($8, i - 0.5) : NaN):(1) smooth frequency with boxes lt i \
  title word(lengths, i)
