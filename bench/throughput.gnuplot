# Requests per second, from bench/out/throughput.dat: docs/pictures/throughput.svg

set terminal svg size 960,420 font "sans,13" background "white"
set output picture
set datafile missing "nan"
set multiplot layout 1,2
set logscale x 2
set logscale y 10
set format y "%.0s %c"
set grid ytics lc rgb "#dddddd"
set key top left reverse Left
set border 3
set tics nomirror
set xtics ("1" 1, "4" 4, "16" 16, "64" 64, "128" 128, "240" 240)
set ylabel "requests a second"

set style line 1 lc rgb "#1b6ca8" lw 2 pt 7 ps 0.7
set style line 2 lc rgb "#c0392b" lw 2 pt 5 ps 0.7
set style line 3 lc rgb "#888888" lw 2 pt 9 ps 0.7 dt 2

set title "One connection"
set xrange [0.9:150]
set xlabel "outstanding requests"
plot for [it=2:4] data index 0 using 1:it with linespoints ls it - 1 title columnheader(it)

set title "16 outstanding requests on each connection"
set xrange [0.9:280]
set xlabel "connections"
plot for [it=2:4] data index 1 using 1:it with linespoints ls it - 1 title columnheader(it)
