#!/usr/bin/env bash
# Lines a second of `park table`, by processor time: a million lines of four readings each. Beside it what a user would write instead: a
# script in Python over the C library (bench/table.py), and one process of `park` a line. PARK is another program than target/bin/park.
set -euo pipefail
cd "$(dirname "$0")/.."
park=${PARK:-target/bin/park}
[ -e "$park" ] || rt check park
examples/shared.sh >&2
mkdir -p target/bench
work=$(mktemp -d target/bench/table.XXXXXX)
trap 'rm -r "$work"' EXIT
python3 vectors/table_cases.py 1000000 >"$work/million"
head -n 100001 "$work/million" >"$work/some"
head -n 301 "$work/million" | tail -n 300 | awk -F, '{ print "altitude=" $2, "temperature=" $3, "pressure=" $4, "humidity=" $5 }' >"$work/words"

# The median of five runs, in lines a second of processor time.
rate() { # LINES COMMAND
    local TIMEFORMAT='%U %S'
    for _ in 1 2 3 4 5; do
        { time "$2" 2>/dev/null; } 2>&1
    done | awk -v lines="$1" '{ printf "%d\n", lines / ($1 + $2) }' | sort -n | sed -n 3p
}

nowhere() { "$park" table <"$work/million" >/dev/null; }
to_a_file() { "$park" table <"$work/million" >"$work/figures"; }
in_python() { PYTHONPATH=python python3 bench/table.py <"$work/some" >"$work/figures"; }
one_process_each() {
    while read -r -a words; do "$park" "${words[@]}" >/dev/null; done <"$work/words"
}

printf 'lines a second                    of four readings\n'
printf 'park table, to /dev/null                   %7d\n' "$(rate 1000000 nowhere)"
printf 'park table, to a file                      %7d\n' "$(rate 1000000 to_a_file)"
printf 'csv and ctypes in Python, without notes    %7d\n' "$(rate 100000 in_python)"
printf 'one process a line                         %7d\n' "$(rate 300 one_process_each)"
