#!/usr/bin/env bash
# Builds target/staticlib/libstation_air.a: the static library of the crate `exports_c`, one object. Each function is a
# section of its own, so a program that is linked with --gc-sections holds only what it calls. It is built only
# where something changed since it was built.
set -euo pipefail
cd "$(dirname "$0")/.."
library=target/staticlib/libstation_air.a
if [ -e "$library" ] && [ -z "$(find crates crates.txt -path "*/out" -prune -o -newer "$library" -print -quit)" ]; then
    echo "rt: $library is built of these crates"
    exit
fi
mkdir -p target/staticlib
(cd crates/exports_c && rt lib)
cp crates/exports_c/out/libexports_c.a "$library"
touch "$library"
