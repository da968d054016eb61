#!/usr/bin/env bash
# Builds the static library, and over it three programs in C and, by the crate in rust/, one in Rust: `main` in both languages judges
# the record of a park, and the same record cut short; `controller` sets the trim class of three masts; `edges` calls at the interface's
# edges. Compares what they print with the expected texts. Both headers pass a C and a C++ compiler with all warnings.
set -euo pipefail
cd "$(dirname "$0")/.."
examples/library.sh | grep '^rt:'
mkdir -p target/examples
warnings=(-Wall -Wextra -Wpedantic -Wconversion -Wshadow -Wundef -Wredundant-decls -Werror -Iinclude)
for header in station_air station_air_rules; do
    echo "#include \"$header.h\"" | cc -std=c99 "${warnings[@]}" -Wstrict-prototypes -fsyntax-only -x c -
    echo "#include \"$header.h\"" | c++ -std=c++11 "${warnings[@]}" -fsyntax-only -x c++ -
done
echo "headers: no warning"
for program in main controller edges; do
    cc -std=c11 "${warnings[@]}" -Wstrict-prototypes -O2 "examples/c/$program.c" target/staticlib/libstation_air.a -lm -o "target/examples/c_$program"
done
CARGO_TARGET_DIR=target/cargo cargo build --offline --quiet --release --manifest-path rust/Cargo.toml
rustc --edition 2021 -D warnings -O --extern station_air=target/cargo/release/libstation_air.rlib -L native=target/staticlib examples/rust/main.rs -o target/examples/rust_main

head -c 40 examples/park.rec >target/examples/cut.rec
for program in c rust; do
    for record in examples/park.rec target/examples/cut.rec; do
        target/examples/"$program"_main "$record" || echo "ends with $?"
    done >target/examples/"$program".txt
    diff examples/expected.txt target/examples/"$program".txt
    echo "$program: as expected"
done
target/examples/c_controller >target/examples/controller.txt
diff examples/controller.txt target/examples/controller.txt
echo "c, controller: as expected"
target/examples/c_edges
echo "c, edges: as expected"
cat examples/expected.txt examples/controller.txt
