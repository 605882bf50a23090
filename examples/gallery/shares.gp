set title "Each unit's share in a total"
set xlabel 'total of a year, in thousands'
set ylabel 'mean of the unit, given the total, in thousands'
set key top left
set datafile missing '-'
thousand = bs / 1e3
rows(unit) = '< sed -n "s/^kappa:'.unit.'://p" examples/gallery/shares.csv'
plot x lc rgb '#bbbbbb' dt 2 title 'the total', \
    rows('Motor') using ($1 * thousand):($3 * thousand) with linespoints pt 7 ps 0.5 lc rgb '#3060a0' title 'Motor', \
    rows('Property') using ($1 * thousand):($3 * thousand) with linespoints pt 7 ps 0.5 lc rgb '#a03030' title 'Property', \
    rows('Liability') using ($1 * thousand):($3 * thousand) with linespoints pt 7 ps 0.5 lc rgb '#308040' title 'Liability'
