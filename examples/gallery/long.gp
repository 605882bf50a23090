set title 'Small claims and rare storms on one grid of 65,536 buckets (AEP)'
set xlabel 'total of a year, in millions'
set ylabel 'probability of more in a year'
set y2label 'return period, in years'
set logscale x
set logscale y
set logscale y2
set yrange [0.00005:1]
set y2range [0.00005:1]
set xrange [0.025:40]
set xtics ('0.025' 0.025, '0.05' 0.05, '0.1' 0.1, '0.25' 0.25, '0.5' 0.5, '1' 1, '2' 2, '4' 4, '8' 8, '16' 16, '32' 32)
set ytics nomirror ('1' 1, '0.1' 0.1, '0.01' 0.01, '0.001' 0.001, '0.0001' 0.0001)
set y2tics ('1' 1, '2' 0.5, '5' 0.2, '10' 0.1, '20' 0.05, '50' 0.02, '100' 0.01, '200' 0.005, '500' 0.002, '1,000' 0.001, '10,000' 0.0001)
do for [years in '2 5 10 20 50 100 200 500 1000 10000'] {
    set arrow from graph 0, first 1.0 / years to graph 1, first 1.0 / years nohead back lc rgb '#dddddd'
}
set key bottom left box lc rgb '#dddddd' opaque
million = bs / 1e6
# On 4,096 buckets of 250 the grid would end here.
set arrow from 4096 * million, graph 0 to 4096 * million, graph 1 nohead back dt 2 lc rgb '#999999'
set label '4,096 buckets' at 4096 * million, graph 0.97 left offset 0.8,0 tc rgb '#777777'
# p is written as 99/100, so a row has its numerator and denominator, then the two ends.
curve = '< sed -n "s/^cdf://p" examples/gallery/long.csv'
years(ask) = '< sed -n "s/^'.ask.':\([0-9]*\)\//\1,/p" examples/gallery/long-years.csv'
plot curve using ($1 * million):(1 - $2) with lines lw 3 lc rgb '#9db8d8' title 'high end', \
    curve using ($1 * million):(1 - $3) with lines lw 1 lc rgb '#203050' title 'low end', \
    years('q') using ($3 * million):(1 - $1 / $2) with points pt 7 ps 1 lc rgb '#203050' title 'VaR of a return period', \
    years('q') using ($3 * million):(1 - $1 / $2):(sprintf('%.2f', $3 * million)) with labels right offset -0.8,-0.5 notitle, \
    years('tail') using ($3 * million):(1 - $1 / $2) with points pt 9 ps 1.2 lc rgb '#a03030' title 'TVaR', \
    years('tail') using ($3 * million):(1 - $1 / $2):(sprintf('%.2f', $3 * million)) with labels left offset 0.8,0.5 \
        tc rgb '#a03030' notitle
