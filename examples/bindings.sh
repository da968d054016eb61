#!/usr/bin/env bash
# Holds the Rust crate and the Python module to the gate's lists, and runs the examples of the crate's documentation.
set -euo pipefail
cd "$(dirname "$0")/.."
examples/shared.sh
unset STATION_AIR_LIB_DIR
export CARGO_TARGET_DIR=$PWD/target/cargo
cargo test --offline --quiet --release --manifest-path rust/Cargo.toml
python3 -m unittest discover -s python
