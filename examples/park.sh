#!/usr/bin/env bash
# Proves and builds `park`, and runs it on the readings of a real park.
#
# Elitch Gardens, Denver, at about 1,586 m, with readings made up for a summer afternoon: 24 °C, QNH
# 1019.3 hPa, 32 percent.
set -euo pipefail
cd "$(dirname "$0")/.."

# `park` and what it rests on: in crates.txt a crate stands below all that it needs
crates=$(tac crates.txt | awk -F: '$1 == "park" || $1 in needed { split($2, names, " "); for (i in names) needed[names[i]]; print $1 }' | tac)
mkdir -p target
count=$(wc -w <<<"$crates")
echo "park rests on $count crates: to prove them takes some ten minutes, and once they are proved half a minute"
number=0
for crate in $crates; do
    number=$((number + 1))
    if [ "$crate" = park ]; then
        scripts/program.sh park
    else
        (cd "crates/$crate" && rt lib) >target/park.log 2>&1 || { cat target/park.log && exit 1; }
    fi
    echo "$number of $count crates: $crate proved"
done
target/bin/park altitude=1586 temperature=24 qnh=1019.3 humidity=32
