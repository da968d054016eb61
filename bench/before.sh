#!/usr/bin/env bash
# Times antilogs, powers, records, a page and a search of another commit beside today's, in one run:
# before.sh [COMMIT]. The commit, 5da6051 where none is given, is unpacked, proved and built below target/before. Its
# functions must have today's signatures: any commit from request K9 on.
set -euo pipefail
cd "$(dirname "$0")/.."
commit=$(git rev-parse --verify "${1:-5da6051}^{commit}")
to=$PWD/target/before
if [ ! -d "$to/$commit" ]; then
    rm -rf "$to/part"
    mkdir -p "$to/part"
    git archive "$commit" | tar -x -C "$to/part"
    mv "$to/part" "$to/$commit"
fi
# commits before examples/library.sh have their functions in libexports.a
if [ -e "$to/$commit/examples/library.sh" ]; then
    "$to/$commit/examples/library.sh"
    library=libstation_air.a
else
    (cd "$to/$commit" && rt staticlib exports)
    library=libexports.a
fi
examples/library.sh
# the functions of the commit get a prefix; those of the C library keep their names
objcopy --prefix-symbols=before_ "$to/$commit/target/staticlib/$library" "$to/libbefore.a"
objcopy --redefine-sym before_memcpy=memcpy --redefine-sym before_memset=memset "$to/libbefore.a"
cc -std=c11 -Wall -Wextra -Werror -O2 bench/before.c "$to/libbefore.a" target/staticlib/libstation_air.a -o "$to/before"
exec "$to/before"
