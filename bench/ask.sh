#!/usr/bin/env bash
# Records a second: `ask judge` on the load's ten thousand lines repeated to a million, beside the program
# `load`, the C interface (the driver's own figure) and one process a record.
set -euo pipefail
cd "$(dirname "$0")/.."
for program in ask load station_air; do
    [ -e "target/bin/$program" ] || scripts/program.sh "$program"
done
mkdir -p target/bench
work=$(mktemp -d target/bench/ask.XXXXXX)
trap 'rm -r "$work"' EXIT

# The median of five runs, in records a second.
rate() { # RECORDS COMMAND..
    local records=$1
    shift
    for _ in 1 2 3 4 5; do
        local start end
        start=$(date +%s%N)
        "$@"
        end=$(date +%s%N)
        echo $((records * 1000000000 / (end - start)))
    done | sort -n | sed -n 3p
}

target/bin/load | sed -n 's/^[0-9A-F]*$/judge &/p' >"$work/ten_thousand"
for _ in $(seq 100); do cat "$work/ten_thousand"; done >"$work/million"

one_process_each() {
    for _ in $(seq 1000); do target/bin/station_air <"$work/record" >/dev/null; done
}
head -n 1 "$work/ten_thousand" | sed 's/^judge //; s/../\\x&/g' | while read -r bytes; do printf '%b' "$bytes"; done >"$work/record"

ask_all() { target/bin/ask <"$work/million" >/dev/null; }
load_all() { target/bin/load >/dev/null; }

printf 'records a second\n'
printf 'ask judge, a million lines   %9d\n' "$(rate 1000000 ask_all)"
printf 'load, ten thousand           %9d\n' "$(rate 10000 load_all)"
printf 'one process a record         %9d\n' "$(rate 1000 one_process_each)"
if [ -x target/oracle/driver ]; then
    target/oracle/driver bench | grep '^load, C interface'
else
    echo "load, C interface: bench/run.sh has it"
fi
