#!/usr/bin/env bash
# Proves the reader, builds its static library and the programs over it, in target/compare/ours. `broken` is
# `damage` over a library with faults.
set -euo pipefail
here=$(cd "$(dirname "$0")" && pwd)
root=$(cd "$here/../.." && pwd)
build=$root/target/compare/ours
mkdir -p "$build"
"$root/packaging/library"
compile() { # the program, and what it is made of
    local program=$1
    shift
    "${CC:-cc}" -std=c11 -D_DEFAULT_SOURCE -Wall -Wextra -Werror -O2 -I"$root/include" -I"$here" "$@" "$here/text.c" \
        "$root/target/staticlib/libvdb.a" -o "$build/$program"
}
compile dump "$here/dump.c"
compile damage "$here/../damage/damage.c"
compile broken "$here/../damage/damage.c" "$here/../damage/broken.c" -Wl,--wrap=vdb_open_file,--wrap=vdb_fill_leaf_numbered,--wrap=vdb_walk,--wrap=vdb_leaf_origins_numbered
