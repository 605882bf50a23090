#!/usr/bin/env sh
# Draws the cdf rows of a CSV report, their low and high ends: plot_cdf.sh REPORT.csv PICTURE.png
# A report for it: decl run --format csv $(seq -f 'cdf:%.0f' 0 40) < TEXT > REPORT.csv
set -eu
if [ $# -ne 2 ]; then
    echo "usage: plot_cdf.sh REPORT.csv PICTURE.png" >&2
    exit 2
fi
if ! command -v gnuplot >/dev/null; then
    echo "plot_cdf.sh: gnuplot is not installed" >&2
    exit 1
fi
room=$(mktemp -d)
trap 'rm -rf "$room"' EXIT
sed -n 's/^cdf://p' < "$1" > "$room/rows"
# gnuplot runs commands that stand in its words and names, so none of its words holds the name of a file that was given.
(cd "$room" && gnuplot -e "
    set datafile separator ',';
    set terminal pngcairo size 800,500;
    set output 'picture';
    set xlabel 'total, in buckets';
    set ylabel 'probability of at most so much';
    set yrange [0:1];
    set key bottom right;
    plot 'rows' using 1:2 with steps title 'low end', 'rows' using 1:3 with steps title 'high end'")
cat "$room/picture" > "$2"
