# The fraction of solid over temperature, from the records of scheil.sh. Set table and picture.
set terminal pngcairo size 900,600
set output picture
set datafile separator ','
set key top right
set xlabel 'temperature, K'
set ylabel 'fraction of solid'
set xrange [1500:1700]
set yrange [-0.02:1.02]
set grid
plot table using 1:2 every ::1 with linespoints pointtype 7 pointsize 0.5 linewidth 2 title 'Fe-15 Cr-5 C, lattice 1/200'
