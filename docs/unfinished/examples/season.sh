#!/usr/bin/env bash
# Runs `park table` on a month of a park's readings, and draws the histogram of the densities with the limits of the trim classes, as SVG.
#
#     examples/season.sh                                        # examples/season.csv, into docs/season.svg
#     examples/season.sh season.svg readings.csv altitude=60    # another table, into another file
#
# The summary is printed. It needs gnuplot, Debian's gnuplot-nox. PARK is another program than target/bin/park.
set -euo pipefail
if ! command -v gnuplot >/dev/null; then
    echo 'no gnuplot: install it, as apt-get install gnuplot-nox; the figures need none: park table altitude=1586 <examples/season.csv' >&2
    exit 1
fi
root=$(cd "$(dirname "$0")/.." && pwd)
file=${1:-$root/docs/season.svg}
readings=${2:-$root/examples/season.csv}
words=("${@:3}")
[ $# -ge 2 ] || words=(altitude=1586)
[ -n "${PARK:-}" ] || [ -e "$root/target/bin/park" ] || (cd "$root" && rt check park >&2)
folder=$(mktemp -d)
trap 'rm -r "$folder"' EXIT
"${PARK:-$root/target/bin/park}" table "${words[@]}" <"$readings" >"$folder/figures"
[ -s "$folder/figures" ] || exit 1

# the lines of each five thousandths of a kg/m3, by their middle; the density is the fourth of the twelve columns at the end
separator=,
head -n 1 "$folder/figures" | grep -q ';' && separator=';'
awk -F "$separator" 'NR > 1 && $(NF - 8) != "" { sub(",", ".", $(NF - 8)); lines[int(int($(NF - 8) * 10000 + 0.5) / 50)]++ }
    END { for (bin in lines) print (bin + 0.5) / 200, lines[bin] }' "$folder/figures" >"$folder/bins"

gnuplot - >"$folder/svg" <<END
set terminal svg size 900,480 font "sans-serif,14" background "white"
set title "Densities of $(basename "$readings"), ${words[*]}, and the trim classes"
set xlabel "density, kg/m³"
set ylabel "lines"
set xrange [*<0.95:1.28<*]
set yrange [0:*]
set xtics 0.05 format "%.2f" nomirror out
set ytics nomirror out
set offsets 0, 0, graph 0.12, 0
set style fill solid 0.6
set boxwidth 0.005
unset key
do for [class = 1:6] {
    limit = 0.95 + 0.05 * class
    set arrow class from limit, graph 0 to limit, graph 1 nohead dashtype 2 linecolor "black" front
    set label class sprintf("%d", class) at limit + 0.025, graph 0.95 center
}
set label 7 "class 0" at 0.975, graph 0.95 center
plot "$folder/bins" with boxes linecolor "black" title "lines"
END
mv "$folder/svg" "$file"
