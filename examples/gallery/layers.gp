set title 'The expected loss of layers of 10,000'
set xlabel 'attachment of the layer, in thousands'
set ylabel 'expected loss of the layer, in thousands'
set yrange [0:11]
set xrange [-6:116]
set xtics 10
set boxwidth 7
set style fill solid 0.4
thousand = bs / 1e3
rows = '< sed -n "s/^layer:10xs//p" examples/gallery/layers.csv'
plot rows using ($1 * thousand):($3 * thousand) with boxes lc rgb '#3060a0' notitle, \
    rows using ($1 * thousand):($3 * thousand):(sprintf('%.2f', $3 * thousand)) with labels offset 0,0.7 notitle
