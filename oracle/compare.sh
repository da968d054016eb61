#!/usr/bin/env bash
# Holds the proved functions to the source with our rules: compare.sh [CALLS [RECORDS]].
set -euo pipefail
here=$(cd "$(dirname "$0")" && pwd)
"$here/driver.sh" -C overflow-checks=on
exec "$here/../target/oracle/driver" compare "${1:-10000000}" "${2:-1000000}"
