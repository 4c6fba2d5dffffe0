#!/usr/bin/env bash
# Measures two builds of the port beside each other, in one run, as Markdown: executed x86-64 instructions, and on an x86-64 machine times by the clock.
#
#   tests/measure/clock.sh BEFORE AFTER
#
# Each is a folder with libcalls.a, libtest_tables.a and libtest_products.a as `rt lib --cpu x86-64` writes them in the folders of these crates; a commit before
# test_products is given that room, which needs nothing but `operation`. Elsewhere than on x86-64 the programs are emulated, and a time would be the emulator's,
# so none is taken.
set -euo pipefail
if [ $# -ne 2 ]; then
    echo "usage: clock.sh BEFORE AFTER" >&2
    exit 2
fi
here=$(cd "$(dirname "$0")" && pwd)
. "$here/../needed.sh"

builds=(before after)
for build in "${builds[@]}"; do
    libraries=$(cd "$1" && pwd)
    shift
    mkdir "$scratch/$build"
    quietly gcc -O2 -Wall -Wextra -shared -fPIC -fvisibility=hidden "$here/count.c" -o "$scratch/$build/count.so"
    quietly "${tools}gcc" -O2 -Wall -Wextra -static -no-pie "$here/measure.c" "$here/product.c" "$libraries"/lib{calls,test_tables,test_products}.a \
        -o "$scratch/$build/measure"
done
python3 "$here/clock.py" "$scratch/before" "$scratch/after" ${emulator:+--emulated}
