#!/usr/bin/env bash
# Calls ./hall and ./layers as a caller may get it wrong or right, and looks at what they say and at their status. What they call must be built or its
# proofs at hand.
# Prints 'N passed, M failed' and exits with 1 where M is not 0.
set -uo pipefail
root=$(cd "$(dirname "$0")/.." && pwd)
scratch=$(mktemp -d)
trap 'rm -rf "$scratch"' EXIT
cd "$scratch"
passed=0 failed=0
example=$'-P 1\nP 2\n-1 0 0 0 -1 0 0 0 -1 0 0 0\n1 0 0 0 1 0 0 0 1 0 0 0\nP 1a\nrefused 14 0'

# name, status, what standard output is, whether something is said on standard error; then the command
holds() {
    local name=$1 status=$2 output=$3 told=$4 found=0 said
    shift 4
    said=$("$@" 2>"$scratch/told") || found=$?
    if [ "$found" = "$status" ] && [ "$said" = "$output" ] && { [ "$told" = "" ] || grep -Eq "^(hall|layers): .*$told" "$scratch/told"; }; then
        passed=$((passed + 1))
    else
        failed=$((failed + 1))
        echo "$name: status $found, output '$said', told '$(cat "$scratch/told")'"
    fi
}
to_full() { "$root/hall" symbols >/dev/full; }
from_pipe() { printf -- '-P 1\nP 1a' | "$root/hall"; }
help_begins() { "$root/hall" --help | head -n 1; }

printf -- '-P 1\nP 1a\n' >symbols
ln -s "$root/hall" link
holds "a file, by a relative name" 0 "$example" "" "$root/hall" symbols
holds "standard input" 0 "$example" "" from_pipe
holds "through a symbolic link" 0 "$example" "" ./link symbols
holds "a full disk" 1 "" "could not be written" to_full
holds "--help" 0 "usage: ./hall [FILE]" "" help_begins
holds "a missing file" 2 "" "no such file" "$root/hall" missing
holds "a directory" 2 "" "a directory" "$root/hall" "$scratch"
holds "an unknown option" 2 "" "no such option" "$root/hall" --fast
holds "two files" 2 "" "one file" "$root/hall" symbols symbols
ln -s "$root/layers" layers-link
first_layers() { ./layers-link 'P 2' | head -n 2; }
layers_help() { "$root/layers" --help | head -n 1; }
layers_to_full() { "$root/layers" 'P 2' >/dev/full; }
layers_of_2=$'P 2: letter P, order 2, 2 subgroups in 2 classes\nlayer 0: order 2, class 0, conjugates 1, normalizer\'s order 2, generators -x,-y,z'
holds "layers, through a symbolic link" 0 "$layers_of_2" "" first_layers
holds "layers: --help" 0 "usage: ./layers [--svg] SYMBOL" "" layers_help
holds "layers: a refused symbol" 1 "" "refused 5" "$root/layers" 'P 2aq'
holds "layers: no symbol" 2 "" "one symbol" "$root/layers"
holds "layers: a full disk" 1 "" "could not be written" layers_to_full
echo "$passed passed, $failed failed"
[ "$failed" = 0 ]
