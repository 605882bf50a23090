set title 'Brackets of quantiles, on the distribution'
set xlabel 'total of a year, in thousands'
set ylabel 'probability of at most so much'
set xrange [-5:155]
set yrange [0.45:1.02]
set key bottom right
set xtics 10
thousand = bs / 1e3
brackets = '< sed -n "s/^q://p" examples/gallery/quantile.csv'
steps = '< sed -n "s/^cdf://p" examples/gallery/quantile-cdf.csv'
plot steps using ($1 * thousand):3 with steps lw 2 lc rgb '#888888' title 'the distribution', \
    brackets using ($2 * thousand):1:(($3 - $2) * thousand):(0) with vectors nohead lw 4 lc rgb '#a03030' title 'the bracket', \
    brackets using ($2 * thousand):1 with points pt 7 lc rgb '#a03030' notitle, \
    brackets using ($3 * thousand):1 with points pt 7 lc rgb '#a03030' notitle
