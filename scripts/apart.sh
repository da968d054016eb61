#!/usr/bin/env bash
# Tries each wrong answer alone. An edit that several share has a line `# NAME` before each of them; the
# gate tries them together, and this makes an edit of each, EDIT__NAME. An edit of one answer is left out.
# Usage: scripts/apart.sh [CRATE...]; those of the crates below are tried too. What is proved in target/ is
# not proved again.
cd "$(dirname "$0")/.." || exit
tree=$(mktemp -d) || exit
trap 'rm -rf "$tree"' EXIT
mkdir -p target
cp -R crates crates.txt "$tree" && ln -s "$PWD/target" "$tree/target" || exit
for edit in "$tree"/crates/*/must-fail/*.edit; do
    awk -v of="${edit%.edit}" '/^# [a-z0-9_]+$/{ part = of "__" substr($0, 3) ".edit" } part { print >part }' "$edit"
    rm "$edit"
done
cd "$tree" && rt must-fail "$@"
