#!/usr/bin/env bash
# Installs into a clean folder and uses each piece from there: C programs linked shared and static by pkg-config alone, the
# Rust crate, the Python module, the programs and their pages. Uninstalls, and looks for what is left.
set -euo pipefail
repository=$(cd "$(dirname "$0")/.." && pwd)
work=$(mktemp -d)
trap 'rm -rf "$work"' EXIT
export PREFIX=$work/usr
unset DESTDIR STATION_AIR_LIB_DIR
"$repository/install.sh" >"$work/installed"
cd "$work"

fail() {
    echo "$1" >&2
    exit 1
}
left() { find "$1" ! -type d; }

if command -v pkg-config >pkg-config.path; then
    flags() { PKG_CONFIG_PATH=$PREFIX/lib/pkgconfig pkg-config "$@" station_air; }
else
    echo "no pkg-config here: its file's lines are taken by sed"
    flags() { sed -n 's/^Cflags: //p; s/^Libs: //p' "$PREFIX/lib/pkgconfig/station_air.pc" | sed "s,\${includedir},$PREFIX/include,; s,\${libdir},$PREFIX/lib,"; }
fi
head -c 40 "$repository/examples/park.rec" >cut.rec
printed() { # PROGRAM
    for record in "$repository/examples/park.rec" cut.rec; do "$1" "$record" || echo "ends with $?"; done
}
# the flags are words
# shellcheck disable=SC2046
cc -std=c11 -O2 "$repository/examples/c/main.c" $(flags --cflags --libs) -o shared
# shellcheck disable=SC2046
cc -std=c11 -O2 -static "$repository/examples/c/main.c" $(flags --static --cflags --libs) -o static
# shellcheck disable=SC2046
cc -std=c11 -O2 "$repository/examples/c/controller.c" $(flags --cflags --libs) -o controller
LD_LIBRARY_PATH=$PREFIX/lib ./controller | diff "$repository/examples/controller.txt" -
LD_LIBRARY_PATH=$PREFIX/lib printed ./shared | diff "$repository/examples/expected.txt" -
printed ./static | diff "$repository/examples/expected.txt" -
if ./shared cut.rec >alone.txt 2>&1; then fail "the shared library was not needed"; fi
grep -q 'libstation_air\.so\.[0-9]' alone.txt
echo "C, shared and static: as expected"

# copies, from which nothing of the repository can be found
cp -r "$repository/rust" crate
rm -rf crate/target
mkdir -p user/src
cat >user/Cargo.toml <<END
[package]
name = "user"
version = "0.1.0"
edition = "2021"

[dependencies]
station-air = { path = "../crate" }
END
cat >user/src/main.rs <<'END'
use station_air::atmosphere::calculate_atmosphere;

fn main() {
    let (density, sound) = calculate_atmosphere(1586.0, Some(24.0), Some(841.897), 32.0);
    println!("{density:.4} kg/m3, {sound:.1} m/s");
    println!("{}", station_air::judge(&[]).unwrap_err());
}
END
(
    cd user
    export CARGO_TARGET_DIR=$work/cargo
    if cargo run --offline --quiet >../cargo.txt 2>&1; then fail "the crate found a library where there is none"; fi
    grep -q 'Set STATION_AIR_LIB_DIR' ../cargo.txt
    STATION_AIR_LIB_DIR=$PREFIX/lib cargo run --offline --quiet
    # and where there is only the shared one
    mkdir ../only_shared
    cp -P "$PREFIX"/lib/libstation_air.so* ../only_shared
    LD_LIBRARY_PATH=$PREFIX/lib STATION_AIR_LIB_DIR=$work/only_shared cargo run --offline --quiet
) >rust.txt
for _ in 1 2; do printf '%s\n' '0.9831 kg/m3, 346.2 m/s' 'neither altitude nor density altitude'; done | diff - rust.txt
echo "Rust, from a clean folder: as expected"

mkdir python
cp "$repository/python/station_air.py" python
cat >python/user.py <<'END'
import station_air

answer = station_air.figures_of_columns(altitude=[1586, 1586], measured_pressure=[841.897, -1], temperature=[24, 24])
print([f"{density:.4f}" for density in answer.density_kg_m3], list(answer.status))
END
if python3 python/user.py >python.txt 2>&1; then fail "the module found a library where there is none"; fi
grep -q 'Set STATION_AIR_LIB_DIR' python.txt
echo "['0.9873', 'nan'] [0, 12]" >python.txt
STATION_AIR_LIB_DIR=$PREFIX/lib python3 python/user.py | diff python.txt -
LD_LIBRARY_PATH=$PREFIX/lib python3 python/user.py | diff python.txt -
echo "Python, from a clean folder: as expected"

"$PREFIX/bin/park" altitude=1586 temperature=24 qnh=1019.3 humidity=32 | grep -q '^density  *0\.9831 kg/m3'
printf '' | "$PREFIX/bin/station_air" | diff - <(echo "refused 10")
echo "judge -" | "$PREFIX/bin/ask" | diff - <(echo "refused 10")
for program in park station_air ask; do
    page=$PREFIX/share/man/man1/$program.1
    grep -q "^$program .- " "$page"
    grep -q "$PREFIX/share/doc/station_air" "$page"
done
echo "programs and pages: as expected"

diff <(left "$PREFIX" | sort) <(sort installed)
"$repository/install.sh" uninstall
[ -z "$(left "$PREFIX")" ] || fail "left by uninstall: $(left "$PREFIX")"
DESTDIR=$work/package PREFIX=/opt/air "$repository/install.sh" >packaged
grep -q '^prefix=/opt/air$' package/opt/air/lib/pkgconfig/station_air.pc
DESTDIR=$work/package PREFIX=/opt/air "$repository/install.sh" uninstall
[ -z "$(left package)" ] || fail "left by uninstall: $(left package)"
echo "uninstall leaves nothing"
