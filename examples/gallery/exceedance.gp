set title 'The exceedance curve of a book (AEP)'
set xlabel 'total of a year, in millions'
set ylabel 'probability of more in a year'
set y2label 'return period, in years'
set logscale y
set logscale y2
set yrange [0.0005:1]
set y2range [0.0005:1]
set xrange [0:15]
set xtics 1
set ytics nomirror ('1' 1, '0.5' 0.5, '0.1' 0.1, '0.05' 0.05, '0.01' 0.01, '0.005' 0.005, '0.001' 0.001, '0.0005' 0.0005)
set y2tics ('1' 1, '2' 0.5, '5' 0.2, '10' 0.1, '20' 0.05, '50' 0.02, '100' 0.01, '200' 0.005, '500' 0.002, '1,000' 0.001, '2,000' 0.0005)
do for [years in '2 5 10 20 50 100 200 500 1000'] {
    set arrow from graph 0, first 1.0 / years to graph 1, first 1.0 / years nohead back lc rgb '#dddddd'
}
set key top right box lc rgb '#dddddd' opaque
million = bs / 1e6
# p is written as 99/100, so a row has its numerator and denominator, then the two ends.
curve = '< sed -n "s/^cdf://p" examples/gallery/exceedance.csv'
years(ask) = '< sed -n "s/^'.ask.':\([0-9]*\)\//\1,/p" examples/gallery/exceedance-years.csv'
plot curve using ($1 * million):(1 - $2) with lines lw 3 lc rgb '#9db8d8' title 'high end', \
    curve using ($1 * million):(1 - $3) with lines lw 1 lc rgb '#203050' title 'low end', \
    years('q') using ($3 * million):(1 - $1 / $2) with points pt 7 ps 1 lc rgb '#203050' title 'VaR of a return period', \
    years('q') using ($3 * million):(1 - $1 / $2):(sprintf('%.2f', $3 * million)) with labels right offset -0.8,-0.5 notitle, \
    years('tail') using ($3 * million):(1 - $1 / $2) with points pt 9 ps 1.2 lc rgb '#a03030' title 'TVaR', \
    years('tail') using ($3 * million):(1 - $1 / $2):(sprintf('%.2f', $3 * million)) with labels left offset 0.8,0.5 \
        tc rgb '#a03030' notitle
