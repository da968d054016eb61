#!/usr/bin/env bash
# The table of docs/TRUST.md, out of what `rt ci` printed: rt ci | tee LOG, then scripts/trust.sh LOG. Crates that reach an axiom,
# the programs, come after it, as the crate and the number of axioms.
set -euo pipefail
log=$(realpath "$1")
cd "$(dirname "$0")/.."

echo '| crate | functions proved | lines of definitions | edits refused |'
echo '|---|---|---|---|'
reaching=
while read -r crate; do
    # a crate's verdict stands before the line that names the crate
    verdict=$(awk -v done="^rt: $crate proved" '/^logic=/ { said = $0 } $0 ~ done { print said }' "$log" | head -n 1)
    functions=$(grep -o 'functions=[0-9]*' <<<"$verdict" | cut -d= -f2)
    axioms=$(grep -o 'axioms=[0-9]*' <<<"$verdict" | cut -d= -f2 || true)
    if [ "${axioms:-0}" -gt 0 ]; then
        reaching+=" \`$crate\` $axioms"
        continue
    fi
    lines=$(find "crates/$crate/specs" -name '*.antt' -exec cat {} + 2>/dev/null | grep -cvE '^(pub )?use ' || true)
    edits=$(grep -c "^rt: must-fail $crate/.*: refused, as it must be" "$log" || true)
    echo "| \`$crate\` | $functions | $lines | $edits |"
done < <(grep -oE '^[a-z_]+( staticlib)?:' crates.txt | sed 's/ staticlib//; s/://')
echo "reach axioms:$reaching"
