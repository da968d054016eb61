#!/usr/bin/env bash
# Holds all ten thousand records that the program `load` writes, and their figures, to the oracle's text. The
# source's folder is SOURCE_DIR, or as for build.sh.
set -euo pipefail
here=$(cd "$(dirname "$0")" && pwd)
root=$(dirname "$here")
"$here/build.sh"
[ -e "$root/target/bin/load" ] || "$root/scripts/program.sh" load
"$root/target/bin/load" >"$root/target/oracle/load_ours.txt"
"$root/target/oracle/oracle" load >"$root/target/oracle/load_theirs.txt"
cmp "$root/target/oracle/load_ours.txt" "$root/target/oracle/load_theirs.txt"
lines=$(wc -l <"$root/target/oracle/load_ours.txt")
echo "$((lines / 3)) records and their figures agree"
[ "$lines" -eq 30000 ]
