#!/usr/bin/env bash
# Draws a park's setting sheet as SVG, to be printed in black and white: density against temperature, the limits of the trim classes as
# dashed lines, the classes' names at the right of the frame, and shaded the temperatures for which CIPM-2007 states its formula.
#
#     examples/plot.sh sheet.svg altitude=1586 qnh=1019.3 humidity=32
#
# The figures, the readings and the limits are those of the page that `park sheet` prints. Where it refuses, that is said, and no file made.
set -euo pipefail
if [ $# -lt 2 ]; then
    echo 'usage: examples/plot.sh FILE WORD .., as examples/plot.sh sheet.svg altitude=1586 qnh=1019.3 humidity=32' >&2
    exit 1
fi
file=$(realpath "$1")
shift
cd "$(dirname "$0")/.."
[ -e target/bin/park ] || scripts/program.sh park >&2
page=$(target/bin/park sheet "$@")
if [[ $page != 'setting sheet'* ]]; then
    echo "$page" >&2
    exit 1
fi

svg=$(awk '
    # the page: three readings, 51 rows, and the limits, the greatest first
    BEGIN { rows = limits = 0 }
    /^(altitude|pressure|humidity) / { reading[$1] = $2; sub(/\.?0+$/, "", reading[$1]) }
    /^pressure / { source = substr($0, index($0, "hPa")) }
    /^ *-?[0-9]/ { celsius[rows] = $1; density[rows++] = $2 }
    /^below / { for (i = 2; i <= NF; i++) if ($(i - 1) == "below") limit[limits++] = $i }

    # places on the page, in points from the upper left
    function x(degrees) { return left + (degrees + 10) * (right - left) / 50 }
    function y(kg) { return bottom - (kg - low) * (bottom - top) / (high - low) }
    function text(at_x, at_y, anchor, size, words) {
        printf "<text x=\"%.1f\" y=\"%.1f\" text-anchor=\"%s\" font-size=\"%d\">%s</text>\n", at_x, at_y, anchor, size, words
    }
    function line(x1, y1, x2, y2, style) {
        printf "<line x1=\"%.1f\" y1=\"%.1f\" x2=\"%.1f\" y2=\"%.1f\" stroke=\"black\" %s/>\n", x1, y1, x2, y2, style
    }
    # the part of a class inside the frame, with its name beside the middle of it
    function class(number, from, to) {
        from = from > low ? from : low
        to = to < high ? to : high
        if (y(from) - y(to) >= 14) text(right + 12, (y(from) + y(to)) / 2 + 5, "start", 14, "class " number)
    }

    END {
        left = 80; right = 790; top = 70; bottom = 570
        least = greatest = density[0]
        for (i = 1; i < rows; i++) { if (density[i] < least) least = density[i]; if (density[i] > greatest) greatest = density[i] }
        # half a step free above and below the curve
        step = 0.05
        while ((greatest - least) / step > 16) step *= 2
        low = int(least / step - 0.5) * step
        high = (int(greatest / step + 0.5) + 1) * step

        print "<svg xmlns=\"http://www.w3.org/2000/svg\" width=\"900\" height=\"640\" viewBox=\"0 0 900 640\" font-family=\"sans-serif\">"
        print "<rect width=\"900\" height=\"640\" fill=\"white\"/>"
        text(450, 24, "middle", 16, "Setting sheet: " reading["altitude"] " m, humidity " reading["humidity"] " percent")
        text(450, 43, "middle", 13, reading["pressure"] " " source)
        # CIPM-2007 states its formula for 15 to 27 °C and 600 to 1,100 hPa
        if (reading["pressure"] + 0 >= 600 && reading["pressure"] + 0 <= 1100) {
            printf "<rect x=\"%.1f\" y=\"%.1f\" width=\"%.1f\" height=\"%.1f\" fill=\"#e4e4e4\"/>\n", x(15), top, x(27) - x(15), bottom - top
            text(x(21), top - 6, "middle", 11, "range of CIPM-2007")
        }
        for (degrees = -10; degrees <= 40; degrees += 5) {
            line(x(degrees), bottom, x(degrees), bottom + 6, "")
            text(x(degrees), bottom + 24, "middle", 14, degrees)
        }
        for (kg = low; kg < high + step / 2; kg += step) {
            line(left - 6, y(kg), left, y(kg), "")
            text(left - 10, y(kg) + 5, "end", 14, sprintf("%.2f", kg))
        }
        for (k = 0; k < limits; k++) {
            class(limits - k, limit[k], k ? limit[k - 1] : high)
            if (limit[k] > low + step / 4 && limit[k] < high - step / 4) line(left, y(limit[k]), right, y(limit[k]), "stroke-dasharray=\"6 4\"")
        }
        class(0, low, limit[limits - 1])
        printf "<polyline fill=\"none\" stroke=\"black\" stroke-width=\"2.5\" points=\""
        for (i = 0; i < rows; i++) printf "%.1f,%.1f ", x(celsius[i]), y(density[i])
        print "\"/>"
        printf "<rect x=\"%d\" y=\"%d\" width=\"%d\" height=\"%d\" fill=\"none\" stroke=\"black\"/>\n", left, top, right - left, bottom - top
        text((left + right) / 2, 620, "middle", 14, "temperature, °C")
        printf "<text transform=\"translate(24,%d) rotate(-90)\" text-anchor=\"middle\" font-size=\"14\">density, kg/m³</text>\n", (top + bottom) / 2
        print "</svg>"
    }' <<<"$page")
printf '%s\n' "$svg" >"$file"
