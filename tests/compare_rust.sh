#!/usr/bin/env bash
# The longer comparison of the C entries with the Rust: builds the Rust's harness, the library and the program that calls it, and compares.
#
#   tests/compare_rust.sh RUST_SOURCE_FOLDER
#
# RUST_SOURCE_FOLDER is moyo 0.21.0's src folder. What is needed beyond it and the kit is installed. The last line is 'N compared, 0 differences';
# or differences are listed, and the exit status is 1.
set -euo pipefail

if [ $# -ne 1 ]; then
    echo "usage: compare_rust.sh RUST_SOURCE_FOLDER" >&2
    exit 2
fi
rust=$(cd "$1" && pwd)
cd "$(dirname "$0")/.."
. client/proved.sh
. tests/needed.sh
need_rustc

oracle/build.sh "$rust" "$scratch/oracle"
quietly build_archive calls
"${tools}gcc" -O1 -Wall -static tests/entries.c crates/calls/out/libcalls.a -o "$scratch/entries"
python3 tests/compare_rust.py "$scratch/entries" "$scratch/oracle/harness" --emulator "$emulator"
