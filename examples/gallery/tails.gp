set title "Each unit's share of the tail mean (TVaR)"
set xlabel 'return period, in years'
set ylabel 'mean of the worst such years, in thousands'
set key top left
set boxwidth 0.75
set style fill solid 0.75 border lc rgb '#ffffff'
set yrange [0:*]
set xrange [-0.6:8.6]
thousand = bs / 1e3
# For each return period the high ends of the three shares, then that of the tail mean.
rows = '< awk -F, ''NR > 1 { line = line $3 ","; if (NR % 4 == 1) { split($1, p, "/"); print p[2] "," line; line = "" } }'' examples/gallery/tails.csv'
plot rows using 0:(($2 + $3 + $4) * thousand):xtic(1) with boxes lc rgb '#308040' title 'Liability', \
    rows using 0:(($2 + $3) * thousand) with boxes lc rgb '#a03030' title 'Property', \
    rows using 0:($2 * thousand) with boxes lc rgb '#3060a0' title 'Motor', \
    rows using 0:($5 * thousand):(sprintf('%.2f', $5 * thousand)) with labels offset 0,0.7 notitle, \
    rows using 0:(($2 + $3 + $4 / 2) * thousand):(sprintf('%.2f', $4 * thousand)) with labels font ',9' tc rgb '#ffffff' notitle, \
    rows using 0:(($2 + $3 / 2) * thousand):(sprintf('%.2f', $3 * thousand)) with labels font ',9' tc rgb '#ffffff' notitle, \
    rows using 0:($2 / 2 * thousand):(sprintf('%.2f', $2 * thousand)) with labels font ',9' tc rgb '#ffffff' notitle
