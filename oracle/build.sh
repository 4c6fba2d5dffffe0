#!/bin/sh
# Compiles the harness around the Rust original with rustc alone.
#
#   oracle/build.sh RUST_SOURCE_FOLDER OUT_FOLDER
#   oracle/build.sh RUST_SOURCE_FOLDER OUT_FOLDER library [FLAGS]
#
# RUST_SOURCE_FOLDER is moyo 0.21.0's src folder (it holds data/hall_symbol.rs). Its files are copied
# unedited, after a look at their checksums. OUT_FOLDER then has
#   harness            the program that answers
#   harness-reversed   the same with the additions of every matrix product in the other order
# or, by the second form, libharness.a for x86-64, with the calls of harness/measured.rs for C. FLAGS go to rustc with all that is
# compiled for x86-64. The variable RUSTC names another compiler than rustc.
set -eu

if [ $# -lt 2 ]; then
    echo "usage: build.sh RUST_SOURCE_FOLDER OUT_FOLDER [library [FLAGS]]" >&2
    exit 2
fi
here=$(cd "$(dirname "$0")" && pwd)
rust=$(cd "$1" && pwd)
mkdir -p "$2"
out=$(cd "$2" && pwd)
shift 2

(cd "$rust" && sha256sum --check --quiet "$here/recorded/rust-files.sha256")

crate=$out/crate
rm -rf "$crate" "$out/forward" "$out/reversed" "$out/measured"
mkdir -p "$crate/subgroup" "$out/forward" "$out/reversed" "$out/measured"
cp "$here/harness/main.rs" "$here/harness/symbols.rs" "$crate/"
cp "$here/harness/measured.rs" "$here/harness/tables.rs" "$crate/subgroup/"
while read -r _ file; do
    mkdir -p "$crate/$(dirname "$file")"
    cp "$rust/$file" "$crate/$file"
done <"$here/recorded/rust-files.sha256"

compile() {
    "${RUSTC:-rustc}" --edition 2024 -O --check-cfg 'cfg(reversed)' --check-cfg 'cfg(measured)' "$@"
}

# build FOLDER OUTPUT KIND [FLAGS]: the stand-ins into FOLDER, the harness as OUTPUT, a program or a library. What expands derives runs in the
# compiler, whatever machine the rest is for.
build() {
    libraries=$out/$1
    output=$out/$2
    kind=$3
    shift 3
    for name in serde strum_macros thiserror; do
        compile --crate-type proc-macro --crate-name "$name" --extern proc_macro \
            --out-dir "$libraries" "$here/standins/$name.rs"
    done
    for name in nalgebra approx log; do
        compile "$@" --crate-type rlib --crate-name "$name" --out-dir "$libraries" "$here/standins/$name.rs"
    done
    compile "$@" --crate-type "$kind" --crate-name harness -L "$libraries" \
        --extern nalgebra --extern approx --extern log \
        --extern serde --extern strum_macros --extern thiserror \
        "$crate/main.rs" -o "$output"
}

if [ "${1:-}" = library ]; then
    shift
    build measured libharness.a staticlib --cfg measured --target x86_64-unknown-linux-gnu "$@"
else
    build forward harness bin
    build reversed harness-reversed bin --cfg reversed
fi
