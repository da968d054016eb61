#!/usr/bin/env bash
# Builds target/oracle/driver, the oracle over the static library of the proved functions. Its arguments are
# more options for rustc; the source's folder is SOURCE_DIR, or as for build.sh.
set -euo pipefail
here=$(cd "$(dirname "$0")" && pwd)
root=$(dirname "$here")
"$here/build.sh"
"$root/examples/library.sh"
rustc --edition 2021 -C opt-level=3 -C codegen-units=1 "$@" --cfg library \
    -L native="$root/target/staticlib" --crate-name driver -o "$root/target/oracle/driver" "$here/src/main.rs"
