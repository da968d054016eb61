#!/usr/bin/env bash
# Installs below PREFIX, /usr/local where it is not set: the archive, the shared library, the two headers, a file for
# pkg-config, the programs `park`, `station_air` and `ask` with a man page each, and what they refer to. What is not
# built yet is built first, with the Rattle kit on the path.
#
#     PREFIX=$HOME/.local ./install.sh              # or DESTDIR=.. for a package: put before PREFIX in every path
#     PREFIX=$HOME/.local ./install.sh uninstall    # takes away every file that the first wrote
set -euo pipefail
cd "$(dirname "$0")"
prefix=${PREFIX:-/usr/local}
case $prefix in /*) ;; *) echo "PREFIX=$prefix: expected a path from /" >&2 && exit 2 ;; esac
root=${DESTDIR:-}$prefix
version=$(sed -n 's/^#define STATION_AIR_VERSION //p' include/station_air.h)
doc=share/doc/station_air

# MODE SOURCE DESTINATION, the destination below the prefix; a source of - is written by this script
files() {
    echo "644 target/staticlib/libstation_air.a lib/libstation_air.a"
    echo "755 target/sharedlib/libstation_air.so.$version lib/libstation_air.so.$version"
    echo "link libstation_air.so.$version lib/libstation_air.so"
    echo "644 include/station_air.h include/station_air.h"
    echo "644 include/station_air_rules.h include/station_air_rules.h"
    echo "pkg-config - lib/pkgconfig/station_air.pc"
    for program in park station_air ask; do
        echo "755 target/bin/$program bin/$program"
        echo "page man/$program.1 share/man/man1/$program.1"
    done
    for text in NOTICE LICENSE-MIT LICENSE-APACHE docs/ASK.md docs/PARK.md docs/RECORD.md; do
        echo "644 $text $doc/${text##*/}"
    done
}

build() {
    examples/shared.sh
    for program in park station_air ask; do
        [ -e "target/bin/$program" ] || scripts/program.sh "$program"
    done
}

put() { # MODE SOURCE DESTINATION
    local to=$root/$3
    mkdir -p "$(dirname "$to")"
    case $1 in
    link) ln -sf "$2" "$to" ;;
    page) sed "s,$doc,$prefix/$doc," "$2" >"$to" && chmod 644 "$to" ;;
    pkg-config)
        cat >"$to" <<END
prefix=$prefix
libdir=\${prefix}/lib
includedir=\${prefix}/include

Name: station_air
Description: The air at a station, from the readings of a mast
Version: $version
Libs: -L\${libdir} -lstation_air
Cflags: -I\${includedir}
END
        chmod 644 "$to"
        ;;
    *) install -m "$1" "$2" "$to" ;;
    esac
}

case ${1:-install} in
install)
    build >&2
    files | while read -r mode source destination; do
        put "$mode" "$source" "$destination"
        echo "$root/$destination"
    done
    ;;
uninstall)
    files | while read -r _ _ destination; do rm -f "$root/$destination"; done
    if [ -d "$root/$doc" ]; then rmdir "$root/$doc"; fi
    ;;
*)
    echo "usage: [PREFIX=..] [DESTDIR=..] install.sh [uninstall]" >&2
    exit 2
    ;;
esac
