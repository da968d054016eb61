#!/usr/bin/env bash
# Adds crates with runs of roots to the folder of a commit whose roots stand in the crate `wide`, and lists them there:
# root_crates.sh FOLDER ROOT, where ROOT is floor_root, the first one, or quick_root, from the tables, which are taken
# once a run. In a chained run each radicand is made of the root before it, as in the antilog; in the other none waits
# for another. A crate with one run has the root in line, and one with two has it as a function that both call.
set -euo pipefail
cd "$1"

case $2 in
floor_root)
    uses='use wide::roots::floor_root;'
    tables=
    names=
    root='floor_root(radicand)'
    ;;
quick_root)
    uses='use wide::quick::quick_root;
use wide::reciprocal_table::reciprocal_table;
use wide::root_table::root_table;'
    tables='let roots = root_table();
    let reciprocals = reciprocal_table();'
    names='roots reciprocals'
    root='quick_root(radicand, &roots, &reciprocals)'
    ;;
esac

run_text() { # NAME START OF NEXT
    cat <<END

#[no_mangle]
pub extern "C" fn $1(words: &[u64]) -> u64 {
    $tables
    let mut y = $2u64;
    let mut i = 0;
    while i < words.len() {
        let word = words[i];
        let bit = word % 2;
        let radicand = Wide {
            hi: $3 >> (2 - bit),
            lo: $3 << (62 + bit),
        };
        y = $4;
        i += 1;
    }
    y
}
END
}

# Each need in the order of the text; CALLS are the functions that a turn calls.
proof_text() { # CRATE NAME CALLS
    local spec=${2//_/-}-spec
    cat <<END
-- \`$1::$2\` ends, and keeps within the words that it is lent.
use Prim.Native.Nat.{_≤_, _-_}
use native.Mathlib.Omega.{arith}
use borrow.Author.Needs.{needs}
use lib.ListN.{length}
use Rattle·$1·proofs.proofs.$2.Statement.{statement}
use Rattle·$1·proofs.proofs.$2.Tie as tie

abbrev Inv-loop : tie.InvT-loop
Inv-loop words $names y₀ i₀ y i = i ≤ length words

abbrev μ-loop : tie.MeasureT-loop
μ-loop words $names y₀ i₀ y i = length words - i

pub $spec : {M : Type 1} → statement M
$spec =
    tie.close
    (tie.spec
    Inv-loop
    μ-loop
END
    for _ in $names; do echo '    (λ c κs. search needs)'; done
    for _ in holds fits read subtracted shifted added shifted; do echo '    (λ c. omega arith)'; done
    for _ in $3; do echo '    (λ c κs. search needs)'; done
    for _ in fits less again; do echo '    (λ c. omega arith)'; done
    echo '    (λ c. search needs))'
}

crate() { # CRATE
    mkdir -p "crates/$1/src"
    printf '%s\nuse wide::words::Wide;\n' "$uses" >"crates/$1/src/lib.rt"
    grep -q "^$1:" crates.txt || echo "$1: wide" >>crates.txt
}

add_run() { # CRATE NAME START OF NEXT CALLS
    run_text "$2" "$3" "$4" "$5" >>"crates/$1/src/lib.rt"
    mkdir -p "crates/$1/proofs/$2"
    proof_text "$1" "$2" "$6" >"crates/$1/proofs/$2/Proof.antt"
}

chained() { add_run "$1" "$2" 0x4000_0000_0000_0000 y "$root" 'root'; }
alone() { add_run "$1" "$2" 0 word "std::num::wrapping_add_u64(y, $root)" 'root sum'; }

crate roots_chained
chained roots_chained chained
crate roots_alone
alone roots_alone alone
crate roots_called
chained roots_called called_chained
alone roots_called called_alone
