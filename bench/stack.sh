#!/usr/bin/env bash
# Prints the stack that a call of each function of the interface takes, in bytes, as target/staticlib/libstation_air.a has it. Needs x86-64,
# Linux and a C compiler. memcpy and memset are bound before the first call, so that the loader's own stack does not count.
set -euo pipefail
cd "$(dirname "$0")/.."
examples/library.sh | grep '^rt:'
cc -std=c11 -Wall -Wextra -Werror -pedantic -O2 -Iinclude bench/stack.c target/staticlib/libstation_air.a -Wl,-z,now -o target/stack
target/stack
