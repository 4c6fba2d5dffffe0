#!/usr/bin/env bash
# Measures the C entries: executed x86-64 instructions, deepest stack, code and constants, as Markdown. An emulated processor counts, so that a slow or
# busy machine gives the same figures as a fast one.
#
#   tests/measure/measure.sh                         every table
#   tests/measure/measure.sh profile ENTRY INPUTS    what each function executes in a call. ENTRY is without "symmetry_"; INPUTS names the input:
#                                                    'database -P 4 2 3', 'database *' (all 530 symbols), 'record of P 1', 'table of P 1', 'C2 ^ 5'
#
# The libraries are those of this repository, proved and built first where they are not, or the archives in the folder that the variable LIBRARIES names.
# What is needed beyond the kit is installed.
set -euo pipefail
here=$(cd "$(dirname "$0")" && pwd)
. "$here/../needed.sh"
. "$here/libraries.sh"

quietly "${tools}gcc" -O2 -Wall -Wextra -static -no-pie "$here/measure.c" "$libraries/libcalls.a" "$libraries/libtest_tables.a" -o "$scratch/measure"
python3 "$here/measure.py" "$scratch" "$libraries/libcalls.a" "$tools" "$@"
