#!/bin/sh
# Builds the harness and makes every recorded answer again; all must come out byte for byte as recorded, with the
# additions of matrix products in either order.
#
#   oracle/check.sh RUST_SOURCE_FOLDER
set -eu
export PYTHONDONTWRITEBYTECODE=1

if [ $# -ne 1 ]; then
    echo "usage: check.sh RUST_SOURCE_FOLDER" >&2
    exit 2
fi
here=$(cd "$(dirname "$0")" && pwd)
work=$(mktemp -d)
trap 'rm -rf "$work"' EXIT

"$here/build.sh" "$1" "$work/build"
for program in harness harness-reversed; do
    mkdir "$work/$program"
    python3 "$here/make_recorded.py" "$work/build/$program" "$work/$program"
    python3 "$here/compare_layers.py" "$work/build/$program" record >"$work/$program/layers.txt"
    python3 "$here/compare_magnetic.py" "$work/build/$program" record >"$work/$program/magnetic.txt"
    for file in "$work/$program"/*; do
        cmp "$file" "$here/recorded/$(basename "$file")"
    done
    echo "$program: recorded answers reproduced"
done
python3 "$here/model.py" test
