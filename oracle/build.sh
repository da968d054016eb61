#!/usr/bin/env bash
# Builds the oracle, target/oracle/oracle, from the source where it stands: build.sh [FOLDER], or the
# variable SOURCE_DIR, or else ../shared/docs/src from the repository's root.
set -euo pipefail
here=$(cd "$(dirname "$0")" && pwd)
root=$(dirname "$here")
from=${1:-${SOURCE_DIR:-$root/../shared/docs/src}}/src
to=$root/target/oracle
mkdir -p "$to"

# The source without the doc comment at its end, which belongs to nothing.
station_part() {
    awk '/^\/\/\// { held = held $0 "\n"; next } { printf "%s", held; held = ""; print }' "$from/atmosphere.rs"
}

# What the text leans on, and child modules, which see the private functions.
children() {
    cat <<'END'
#[path = "../../oracle/src/stand_ins.rs"]
mod stand_ins;
use stand_ins::*;
#[path = "../../oracle/src/station.rs"]
pub mod station;
#[path = "../../oracle/src/density_vapor.rs"]
pub mod density_vapor;
#[path = "../../oracle/src/record.rs"]
pub mod record;
#[cfg(library)]
#[path = "../../bench/heapless.rs"]
pub mod heapless;
END
}

cp "$from/constants.rs" "$to/constants.rs"
{
    station_part
    children
} >"$to/stock.rs"
{
    station_part | sed 's/\.powf(/.rule_powf(/g; s/\.exp()/.rule_exp()/g; s/\.ln()/.rule_ln()/g'
    children
    echo 'use crate::rule_calls::RuleCalls;'
} >"$to/ruled.rs"

rustc --edition 2021 -C opt-level=3 -C overflow-checks=on --crate-name oracle -o "$to/oracle" "$here/src/main.rs"
