#!/usr/bin/env bash
# Builds the programs and the driver over the static library, and times the functions and the load.
set -euo pipefail
cd "$(dirname "$0")/.."
for program in station_air load; do
    [ -e "target/bin/$program" ] || scripts/program.sh "$program"
done
oracle/driver.sh
target/oracle/driver bench
size target/staticlib/libstation_air.a
