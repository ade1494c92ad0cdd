# Instructions of an event, from bench/out/instructions.dat: docs/pictures/instructions.svg

set terminal svg size 1080,400 font "sans,13" background "white"
set output picture
set multiplot layout 1,3
set format y "%.1s %c"
set yrange [0:*]
set grid ytics lc rgb "#dddddd"
set key above horizontal
set border 3
set tics nomirror
set ylabel "instructions"

set style line 1 lc rgb "#1b6ca8" lw 2 pt 7 ps 0.7
set style line 2 lc rgb "#c0392b" lw 2 pt 5 ps 0.7
set style line 3 lc rgb "#2e8b57" lw 2 pt 9 ps 0.7

array titles[3] = ["beside other connections", "beside observers of another resource", "beside stored resources"]
array steps[3] = [50, 1000, 250]

do for [panel=1:3] {
    set xlabel titles[panel]
    set xtics steps[panel]
    plot for [it=2:4] data index panel - 1 using 1:it with linespoints ls it - 1 title columnheader(it)
}
