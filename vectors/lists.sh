#!/usr/bin/env bash
# Makes the lists again: the questions in crates/ask/stdin and crates/ask_functions/stdin, the oracle's answers in stdout beside them, and
# the bounds in vectors/bounds; then holds the answers to the bounds. The source's folder is SOURCE_DIR, or as for oracle/build.sh.
# Needs a Rust compiler, and a Python with mpmath; and for the bounds outside_* one with iapws and fluids, or they stay as they are.
set -euo pipefail
cd "$(dirname "$0")/.."
lists=target/lists
mkdir -p "$lists"
oracle/build.sh
target/oracle/oracle lists "$lists"
for maker in roots report park round_trips forms; do
    python3 "vectors/$maker.py" "$lists"
done
python3 vectors/true_values.py
python3 vectors/published.py
for python in python3 /usr/bin/python3 none; do
    if [ "$python" = none ]; then
        echo 'no iapws and fluids: the bounds outside_* stay as they are'
    elif "$python" -c 'import fluids, iapws' 2>/dev/null; then
        "$python" vectors/outside.py
        break
    fi
done
python3 vectors/lists.py "$lists"
python3 vectors/within.py
