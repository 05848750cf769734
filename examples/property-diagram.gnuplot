# gnuplot -e "table='property-diagram.csv'; picture='property-diagram.png'" examples/property-diagram.gnuplot
set datafile separator ','
set terminal pngcairo noenhanced size 900,540 font 'sans,11'
set output picture
set title 'Fe-0.15Cr-0.05C (mole fractions), a database that claims nothing about real alloys'
set xlabel 'temperature, K'
set ylabel 'share of all atoms'
set yrange [0:1]
set key outside right
set style data linespoints
plot for [column in 'LIQUID BCC_A2 FCC_A1 CEMENTITE M23C6 GRAPHITE'] table using 'temperature':column title column pointtype 7 pointsize 0.5 linewidth 2
