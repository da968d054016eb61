#!/usr/bin/env bash
# Times roots, antilogs, powers and humid records before and after request K13, beside the u128 Rust, in one run:
# roots.sh [BEFORE AFTER], two commits with the crates `wide` and `exports`, 012bd23 and 78f5619 where none are given.
# Each is unpacked, proved and built below target/roots. The source's folder is SOURCE_DIR, or ../shared/docs/src.
set -euo pipefail
cd "$(dirname "$0")/.."
from=$(cd "${SOURCE_DIR:-../shared/docs/src}" && pwd)
to=$PWD/target/roots
mkdir -p "$to/lib"

# NAME points to the commit's files, with the crates of root_crates.sh; the symbols of its libraries get its name
# as their prefix.
libraries() { # NAME COMMIT ROOT
    local commit library
    commit=$(git rev-parse --verify "$2^{commit}")
    if [ ! -d "$to/$commit" ]; then
        rm -rf "$to/part"
        mkdir "$to/part"
        git archive "$commit" | tar -x -C "$to/part"
        mv "$to/part" "$to/$commit"
    fi
    ln -sfn "$commit" "$to/$1"
    bench/root_crates.sh "$to/$commit" "$3"
    for library in exports roots_chained roots_alone roots_called; do
        (cd "$to/$commit" && rt staticlib "$library")
        objcopy --prefix-symbols="$1_" "$to/$commit/target/staticlib/lib$library.a" "$to/lib/lib$1_$library.a"
    done
}

libraries before "${1:-012bd23}" floor_root
libraries after "${2:-78f5619}" quick_root
"$to/after/oracle/build.sh" "$from"
linked=()
for library in "$to"/lib/lib*.a; do
    library=$(basename "$library" .a)
    linked+=(-l "static=${library#lib}")
done
rustc --edition 2021 -C opt-level=3 -C codegen-units=1 -L native="$to/lib" "${linked[@]}" \
    --crate-name roots -o "$to/roots" bench/roots.rs
exec "$to/roots"
