#!/usr/bin/env bash
# Proves and builds each of the programs that it is asked for, as target/bin/NAME, with the Rattle kit on the path.
set -euo pipefail
cd "$(dirname "$0")/.."
mkdir -p target/bin
for program in "$@"; do
    # `rt run` builds the program and runs it, here on no input
    (cd "crates/$program" && rt run </dev/null >/dev/null)
    cp "crates/$program/out/$program" "target/bin/$program"
done
