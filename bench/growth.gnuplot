# Draws the growths that bench/bench.sh has measured: for each request four bars.
#
#     gnuplot -e "table='out/bench/growth.tsv'; picture='out/bench/growth.svg'" bench/growth.gnuplot
set terminal svg size 900,480 background 'white' font 'sans-serif,12'
set output picture
set datafile separator '\t'
set title 'Time of a request as the server holds more objects'
set ylabel 'microseconds'
set yrange [0:*]
set style data histogram
set style histogram clustered gap 1
set style fill solid border -1
set xtics rotate by -20
set key left top
plot table using ($2/1000):xtic(1) title 'kmipctl, few objects' linecolor rgb '#9ecae1', \
     '' using ($4/1000) title 'kmipctl, 10,000 objects' linecolor rgb '#3182bd', \
     '' using ($3/1000) title 'baseline, few objects' linecolor rgb '#fdd0a2', \
     '' using ($5/1000) title 'baseline, 10,000 objects' linecolor rgb '#e6550d'
