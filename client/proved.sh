# To be sourced at the top of the repository: ./hall and ./layers, which set `name` and `sources` before, have what they call proved and built on first use
# and after a change, and told so; the gate and the commands of tests/ build the static libraries by it.

refuse() { # MESSAGE STATUS
    echo "$name: $1" >&2
    exit "$2"
}

install_packages() {
    export DEBIAN_FRONTEND=noninteractive
    { apt-get update && apt-get install -y --no-install-recommends "$@"; } </dev/null >"target/$name-log" 2>&1 || {
        cat "target/$name-log" >&2
        exit 1
    }
}

# The kit, and every file of the places but what `rt` made, in one text that changes with any of them.
state_of() { # PLACE...
    rt version
    find "$@" -name out -prune -o -type f -print0 | LC_ALL=C sort -z | xargs -0 sha256sum | sha256sum
}

# What `rt ci` has left of its libraries and of the program, in one text. A library with a stamp was built by another command of `rt`.
left_by_gate() {
    { sha256sum crates/*/out/rlib/stamp crates/*/out/rlib/*.rlib/format crates/hall/out/hall 2>/dev/null || true; } | sha256sum
}

# Notes that `rt ci` has just passed, so that what it built can be used. It gives back the libraries that stood before it in the place of its own: the caller
# sees to it that none stood, or only those of these sources. Where another command of `rt` had left some, which have a stamp, nothing is noted.
note_gate() {
    mkdir -p target
    if compgen -G 'crates/*/out/rlib/stamp' >/dev/null; then
        rm -f target/gate-passed
    else
        { state_of crates.txt crates && left_by_gate; } >target/gate-passed
    fi
}

# Whether what stands in crates/*/out is what a passed `rt ci` built of these sources.
gate_stands() { [ -f target/gate-passed ] && { state_of crates.txt crates && left_by_gate; } | cmp -s - target/gate-passed; }

# Static libraries are built for every x86-64 processor. With no such words they need one with SSE4.2 and POPCNT, and do not look whether it is one.
processor=(--cpu x86-64)

# Proves the static library NAME and builds it over the libraries that `rt ci` has left; `rt lib` would prove each of those once more.
build_over_gate() ( # NAME
    kit=$(dirname "$(rt doc)")
    words=(--crate-name "$1" src/lib.rt --extern "std=$kit/rlibs/std.rlib" -L "dependency=$kit/rlibs")
    for library in $(sed -n "s/^$1 staticlib://p" crates.txt); do
        words+=(--extern "$library=$PWD/crates/$library/out/rlib/$library.rlib")
    done
    for folder in "$PWD"/crates/*/out/rlib; do
        words+=(-L "dependency=$folder")
    done
    words+=(--antt-project "$kit/rattle/logic/antt-project.json" --logic-built "$kit/logic_built" --jobs "$(($(nproc) > 1 ? 2 : 1))")
    words+=(--links "$1=" --crate-type staticlib "${processor[@]}" --toolchain "$kit/toolchain" --backend llvm)
    mkdir -p "crates/$1/out" && cd "crates/$1" && "$kit/bin/rattle" build "${words[@]}" -o "out/lib$1.a"
)

# Proves the static library NAME and writes crates/NAME/out/libNAME.a.
build_archive() { # NAME
    { gate_stands && build_over_gate "$1"; } || (cd "crates/$1" && rt lib "${processor[@]}")
}

# Proves the program NAME and writes crates/NAME/out/NAME, which a passed `rt ci` has left there. Its input is empty, so it writes nothing.
build_program() { # NAME
    { gate_stands && [ -x "crates/$1/out/$1" ]; } || (cd "crates/$1" && rt run)
}

# Runs a command that proves and builds, unless FILE was built by this kit of the places named in `sources` as they are.
prove_and_build() { # FILE COMMAND...
    local file=$1 built=target/$name-built log=target/$name-log
    shift
    command -v rt >/dev/null || refuse "rt, the command of the Rattle kit, is not to be found" 1
    [ "$(uname -m)" = x86_64 ] || refuse "the Rattle kit proves and builds on x86-64 alone" 1
    mkdir -p target
    # Their state at the start, so that what changes meanwhile counts as changed.
    state_of $sources >"$built.new"
    if [ -e "$file" ] && cmp -s "$built" "$built.new"; then
        return
    fi
    echo "$name: proving and building first; the first time that takes long" >&2
    "$@" </dev/null 2>&1 | tee "$log" | sed -u -n "s/^rt: chose --jobs [0-9]* for \([a-z_]*\)$/$name: proving \1/p" >&2 || {
        cat "$log" >&2
        exit 1
    }
    after_proof
    mv "$built.new" "$built"
    echo "$name: proved and built" >&2
}
