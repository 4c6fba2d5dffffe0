# To be sourced by the commands of tests/: a scratch folder, and what they need beyond the kit, installed where it is missing. Sets `tools`, which
# stands before the names of the x86-64 tools, and `emulator`, the command that runs an x86-64 program where the machine is none.
scratch=$(mktemp -d)
trap 'rm -rf "$scratch"' EXIT
# The tests write nothing into the repository.
export PYTHONDONTWRITEBYTECODE=1

case $(uname -m) in
x86_64) tools="" emulator="" packages="gcc g++ libc6-dev qemu-user python3" ;;
*)
    tools=x86_64-linux-gnu- emulator=qemu-x86_64
    packages="gcc libc6-dev gcc-x86-64-linux-gnu g++-x86-64-linux-gnu libc6-dev-amd64-cross qemu-user python3"
    ;;
esac

# Runs a command, and shows what it says only if it fails.
quietly() {
    "$@" >"$scratch/said" 2>&1 || {
        cat "$scratch/said" >&2
        echo "failed: $*" >&2
        exit 1
    }
}

install_packages() {
    export DEBIAN_FRONTEND=noninteractive
    quietly apt-get update
    quietly apt-get install -y --no-install-recommends "$@"
}

links() { echo 'int main(void) { return 0; }' | "$@" -x c - -o "$scratch/empty" 2>/dev/null; }
present() {
    command -v python3 >/dev/null && command -v qemu-x86_64 >/dev/null && command -v "${tools}g++" >/dev/null && links gcc && links "${tools}gcc" -static
}
present || install_packages $packages

# A rustc that knows the Rust's edition; Debian's is that of its package rustc-web.
need_rustc() {
    echo 'fn main() {}' | rustc --edition 2024 - -o "$scratch/empty" 2>/dev/null || install_packages rustc-web
}
