set title 'A distribution function with its enclosure'
set xlabel 'total of a year, in thousands'
set ylabel 'probability of at most so much'
set yrange [0:1.05]
set xrange [0:51]
set key bottom right
thousand = bs / 1e3
# Each row is of the totals from its own up to the next.
steps(digits) = '< sed -n "s/^cdf://p" examples/gallery/distribution-'.digits.'.csv | awk -F, -v OFS=, "{print; print \$1 + 1, \$2, \$3}"'
plot steps('1') using ($1 * thousand):2:3 with filledcurves fs solid 0.3 lc rgb '#3060a0' title 'between the ends, one digit', \
    steps('6') using ($1 * thousand):2 with lines lw 1 lc rgb '#203050' title 'low end, six digits', \
    steps('6') using ($1 * thousand):3 with lines lw 1 lc rgb '#a03030' title 'high end, six digits'
