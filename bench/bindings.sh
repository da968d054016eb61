#!/usr/bin/env bash
# Nanoseconds that Rust and Python add to a call of the C interface.
set -euo pipefail
cd "$(dirname "$0")/.."
examples/shared.sh >&2
[ -e target/bin/load ] || scripts/program.sh load
mkdir -p target/bench
export CARGO_TARGET_DIR=target/cargo
cargo build --offline --quiet --release --manifest-path rust/Cargo.toml
rustc --edition 2021 -O --extern station_air=target/cargo/release/libstation_air.rlib -L native=target/staticlib \
    bench/bindings.rs -o target/bench/bindings
target/bench/bindings >target/bench/rust.txt
target/bin/load 250 | grep '^[0-9A-F]*$' | PYTHONPATH=python python3 bench/bindings.py >target/bench/python.txt
awk -F '\t' '
    BEGIN { printf "%-32s%9s%9s%9s%9s%9s\n", "nanoseconds a call", "C", "Rust", "added", "Python", "added" }
    NR == FNR { python[$1] = $2; next }
    { c[$1] = $2; printf "%-32s%9.1f%9.1f%9.1f", $1, $2, $3, $3 - $2 }
    $1 in python { printf "%9.0f%9.0f", python[$1], python[$1] - $2; delete python[$1] }
    { print "" }
    END { for (name in python) printf "%-32s%9.1f%9s%9s%9.0f%9.0f\n", name, c["judge, a record of the load"], "", "", python[name], python[name] - c["judge, a record of the load"] }
' target/bench/python.txt target/bench/rust.txt
