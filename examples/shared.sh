#!/usr/bin/env bash
# Builds target/sharedlib/libstation_air.so.N of the static library's one object, N the version of the interface, and
# the link libstation_air.so to it. Calls inside it are bound inside it: no other library can step in.
set -euo pipefail
cd "$(dirname "$0")/.."
examples/library.sh
version=$(sed -n 's/^#define STATION_AIR_VERSION //p' include/station_air.h)
name=libstation_air.so.$version
mkdir -p target/sharedlib
rm -f target/sharedlib/libstation_air.so*
cc -shared -o "target/sharedlib/$name" \
    -Wl,-soname,"$name",-Bsymbolic,-z,defs,-z,noexecstack,-z,relro,-z,now \
    -Wl,--whole-archive target/staticlib/libstation_air.a -Wl,--no-whole-archive
ln -s "$name" target/sharedlib/libstation_air.so
echo "target/sharedlib/$name"
