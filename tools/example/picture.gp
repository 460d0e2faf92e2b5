# A signal, where a requirement on it holds, and by how much. COLUMN is a field of the header, as out:3 or brake:step; PICTURE is a name
# that ends with .svg, or a PNG.
# gnuplot -c picture.gp RECORDING COLUMN VERDICTS MARGIN PICTURE
if (ARG5[strlen(ARG5) - 3:strlen(ARG5)] eq ".svg") { set terminal svg size 800,520 } else { set terminal pngcairo size 800,520 font ",11" }
set output ARG5
set multiplot layout 3,1 margins 0.10,0.97,0.11,0.97 spacing 0.02
set grid xtics lc rgb "#dddddd"
set xrange [*:*] noextend
unset key
set format x ""
set ylabel ARG2
set datafile separator ","
set offsets 0, 0, graph 0.06, graph 0.06
# a step column keeps its value up to the next row, a ramp goes in straight lines
if (strstrt(ARG2, ":step") > 0) {
    plot ARG1 using 1:ARG2 with steps lw 2 lc rgb "#1f5fa8"
} else {
    plot ARG1 using 1:ARG2 with lines lw 2 lc rgb "#1f5fa8"
}
unset offsets
# the pictures below it have the same times, also where no margin is finite
set xrange [GPVAL_X_MIN:GPVAL_X_MAX]
set datafile separator whitespace
set ylabel "holds"
set yrange [0:1]
unset ytics
plot ARG3 using 1:(0):1:2:(0):(1):($3 == 1 ? 0x8fc1e3 : 0xe08a2e) with boxxyerror fs solid lc rgb variable
set yrange [*:*]
set ytics
set format x "%g"
set xlabel "time"
set ylabel "margin"
plot 0 with lines lc rgb "#888888", ARG4 using 1:2 with lines lw 2 lc rgb "#1f5fa8"
unset multiplot
