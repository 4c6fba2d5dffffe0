#!/usr/bin/env bash
# Measures the Rust and gemmi beside the port: the same inputs in one run of one program, executed x86-64 instructions, as Markdown.
#
#   tests/measure/beside.sh RUST_SOURCE_FOLDER
#
# RUST_SOURCE_FOLDER is moyo 0.21.0's src folder. The port's libraries are those of this repository, proved and built first where they are not, or the
# archives in the folder that the variable LIBRARIES names. What is needed beyond the kit is installed: on Debian the packages rustc-web and gemmi-dev and
# compilers for x86-64; where the machine is none, the Rust's standard library for x86-64 is unpacked into a scratch folder.
set -euo pipefail
if [ $# -ne 1 ]; then
    echo "usage: beside.sh RUST_SOURCE_FOLDER" >&2
    exit 2
fi
rust=$(cd "$1" && pwd)
here=$(cd "$(dirname "$0")" && pwd)
. "$here/../needed.sh"
. "$here/libraries.sh"

installed() { dpkg-query -W -f '${Version}' "$1" 2>/dev/null; }
{ installed rustc-web && installed gemmi-dev; } >/dev/null || install_packages rustc-web gemmi-dev
file_of() { dpkg -L "$1" | grep -m 1 "/$2\$"; }
rustc=$(file_of rustc-web bin/rustc)

# A package of x86-64, unpacked and not installed. The lists of packages for x86-64 are kept apart, so that the machine's own stay as they are.
unpack_for_x86() {
    local apart=$scratch/packages
    mkdir -p "$apart/state/lists/partial" "$apart/cache/archives/partial" "$apart/unpacked"
    cat >"$apart/settings" <<SETTINGS
APT::Architecture "amd64";
APT::Architectures { "amd64"; };
APT::Sandbox::User "root";
Dir::State "$apart/state";
Dir::State::status "/dev/null";
Dir::Cache "$apart/cache";
SETTINGS
    APT_CONFIG=$apart/settings quietly apt-get update
    (cd "$apart" && APT_CONFIG=$apart/settings quietly apt-get download "$1" && quietly dpkg -x ./*.deb unpacked)
    rm -rf "$apart"/*.deb "$apart/state" "$apart/cache"
}
flags=()
if [ "$(uname -m)" != x86_64 ]; then
    unpack_for_x86 "libstd-rust-web-dev=$(installed rustc-web)"
    flags=(-L "$scratch/packages/unpacked/usr/lib/rustlib/x86_64-unknown-linux-gnu/lib")
fi
RUSTC=$rustc quietly "$here/../../oracle/build.sh" "$rust" "$scratch/rust" library "${flags[@]}"

# Gemmi's headers alone: a compiler for another machine must not see this machine's.
mkdir "$scratch/include" "$scratch/mathematics"
ln -s "$(dirname "$(file_of gemmi-dev symmetry.hpp)")" "$scratch/include/gemmi"
quietly "${tools}g++" -O2 -Wall -Wextra -std=c++11 -I "$scratch/include" -c "$here/gemmi.cpp" -o "$scratch/gemmi.o"

# Debian's libm.a for another machine names its parts where only that machine has them.
parts=$(dirname "$("${tools}gcc" -print-file-name=libc.a)")
echo "GROUP ($(echo "$parts"/libm-*.a "$parts"/libmvec.a))" >"$scratch/mathematics/libm.a"
for part in measure beside; do
    quietly "${tools}gcc" -O2 -Wall -Wextra -c "$here/$part.c" -o "$scratch/$part.o"
done
quietly "${tools}g++" -static -no-pie -L "$scratch/mathematics" "$scratch"/{measure,beside,gemmi}.o "$libraries"/lib{calls,test_tables}.a \
    "$scratch/rust/libharness.a" -o "$scratch/measure"
echo "The Rust: moyo 0.21.0 by $("$rustc" --version). Gemmi: $(installed gemmi-dev) by $("${tools}g++" --version | head -n 1)."
echo
python3 "$here/measure.py" "$scratch" "$libraries/libcalls.a" "$tools" beside
