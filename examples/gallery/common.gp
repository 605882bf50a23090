thousand = bs / 1e3
# p is written as 99/100, so a row has its numerator and denominator, then the two ends.
curve(file) = '< sed -n "s/^cdf://p" examples/gallery/'.file.'.csv'
years(ask, file) = '< sed -n "s/^'.ask.':\([0-9]*\)\//\1,/p" examples/gallery/'.file.'.csv'
set multiplot
set origin 0, 0
set size 0.57, 1
set title 'Three lines, with a common factor and without (AEP)'
set xlabel 'total of a year, in thousands'
set ylabel 'probability of more in a year' offset 1
set logscale y
set yrange [0.0005:1]
set xrange [0:800]
set xtics 200
set ytics nomirror ('1' 1, '0.1' 0.1, '0.01' 0.01, '0.001' 0.001)
do for [period in '2 10 50 100 200 500'] {
    set arrow from graph 0, first 1.0 / period to graph 1, first 1.0 / period nohead back lc rgb '#dddddd'
}
set key top right Left reverse samplen 2
plot curve('common') using ($1 * thousand):(1 - $3) with lines lw 2 lc rgb '#a03030' title 'common factor', \
    curve('common-alone') using ($1 * thousand):(1 - $3) with lines lw 2 lc rgb '#3060a0' title 'independent', \
    years('q', 'common-years') using ($3 * thousand):(1 - $1 / $2) with points pt 7 ps 0.8 lc rgb '#a03030' title 'VaR', \
    years('q', 'common-years-alone') using ($3 * thousand):(1 - $1 / $2) with points pt 7 ps 0.8 lc rgb '#3060a0' notitle
unset arrow
unset logscale y
set origin 0.57, 0
set size 0.43, 1
set title 'Tail means (TVaR)'
set xlabel 'return period, in years'
set ylabel 'mean of the worst such years, in thousands' offset 1
set lmargin 9
set yrange [0:1000]
set xrange [-0.6:5.6]
set xtics autofreq
set ytics autofreq
set boxwidth 0.38
set style fill solid 0.75 border lc rgb '#ffffff'
set key top left Left reverse samplen 2
plot years('tail', 'common-years') using ($0 - 0.19):($4 * thousand):xtic(2) with boxes lc rgb '#a03030' title 'common factor', \
    years('tail', 'common-years-alone') using ($0 + 0.19):($4 * thousand) with boxes lc rgb '#3060a0' title 'independent', \
    years('tail', 'common-years') using ($0 - 0.19):($4 * thousand):(sprintf('%.2f', $4 * thousand)) with labels rotate by 90 left offset 0,0.4 font ',9' notitle, \
    years('tail', 'common-years-alone') using ($0 + 0.19):($4 * thousand):(sprintf('%.2f', $4 * thousand)) with labels rotate by 90 left offset 0,0.4 font ',9' notitle
unset multiplot
