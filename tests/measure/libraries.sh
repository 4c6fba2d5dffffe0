# To be sourced by measure.sh and beside.sh: a folder with the port's libraries as `libraries`, and the plugin that counts.
libraries=${LIBRARIES:-$scratch/libraries}
# Runs at the top of the repository.
build_libraries() (
    cd "$here/../.."
    . client/proved.sh
    for library in calls test_tables; do
        quietly build_archive "$library"
        cp "crates/$library/out/lib$library.a" "$libraries"
    done
)
[ -n "${LIBRARIES:-}" ] || { mkdir "$libraries" && build_libraries; }
quietly gcc -O2 -Wall -Wextra -shared -fPIC -fvisibility=hidden "$here/count.c" -o "$scratch/count.so"
