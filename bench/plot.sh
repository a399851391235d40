#!/usr/bin/env bash
# Draws bench/plots/*.svg from the data beside them, which bench/measure.sh writes. It needs gnuplot, and says so where
# that isn't installed. OUT names another directory with the data.
set -eu
cd "$(dirname "$0")/.."
command -v gnuplot > /dev/null || { echo "plots: gnuplot isn't installed: no plot is drawn"; exit 0; }
data=${OUT:-bench/plots}
for name in size recipes mails; do
    [ -f "$data/$name.dat" ] || { echo "plots: there is no $data/$name.dat: bench/measure.sh writes it" >&2; exit 1; }
done
cd "$data"

# draw NAME TITLE AXIS PLOT ..: a plot with both axes in powers of ten.
draw() {
    gnuplot << END
set terminal svg size 640,400 font 'sans-serif,13' background 'white'
set output '$1.svg'
set title '$2'
set xlabel '$3'
set ylabel 'million instructions'
set logscale xy
set format x '%.0s%c'
set format y '%g'
set grid linecolor '#dddddd'
set key left top Left reverse
set datafile missing '?'
plot $4
END
}
ours="with linespoints linewidth 2 pointtype 7 pointsize 0.6 linecolor '#1f77b4'"
theirs="with linespoints linewidth 2 pointtype 5 pointsize 0.6 linecolor '#d62728'"
draw size 'A delivery, by the size of the mail' 'bytes of the mail' \
    "'size.dat' using 1:2 $ours title 'to a mailbox, ours', '' using 1:3 $theirs title 'to a mailbox, 3.22', \
    '' using 1:4 $ours dashtype 2 title 'and a search of the body, ours', \
    '' using 1:5 $theirs dashtype 2 title 'and a search of the body, 3.22'"
draw recipes 'A delivery, by the number of recipes before it' 'recipes with a header condition' \
    "'recipes.dat' using 1:2 $ours title 'ours', '' using 1:3 $theirs title '3.22'"
draw mails 'formail -s, by the number of mails of 4 KiB' 'mails in the mailbox' \
    "'mails.dat' using 1:2 $ours title 'ours', '' using 1:3 $theirs title '3.22'"
echo "plots: size.svg, recipes.svg and mails.svg are in bench/plots"
