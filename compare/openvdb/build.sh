#!/usr/bin/env bash
# Builds what writes and compares clouds by OpenVDB's library, in DIRECTORY. `whole` goes over our static library, which must be there; `whole_broken` is
# `whole` over a library with faults.
#
#     build.sh DIRECTORY
set -euo pipefail
here=$(cd "$(dirname "$0")" && pwd)
root=$(cd "$here/../.." && pwd)
build=$1
mkdir -p "$build"
compile() { "${CXX:-c++}" -std=c++17 -Wall -Wextra -I"$root/tools/openvdb" -I"$root/include" "$@" -lopenvdb -ltbb -lImath-3_1 -lboost_iostreams; }
# Only where something is newer: OpenVDB's tools take a minute to compile.
if ! [ "$build/generate" -nt "$here/generate.cc" ] || ! [ "$build/generate" -nt "$root/tools/openvdb/archive.h" ] ||
    ! [ "$build/generate" -nt "$root/tools/openvdb/library.h" ]; then
    compile -O1 "$here/generate.cc" -o "$build/generate"
fi
compile -O2 -c "$here/whole.cc" -o "$build/whole.o"
"${CC:-cc}" -std=c11 -Wall -Wextra -Werror -O2 -I"$root/include" -c "$here/broken.c" -o "$build/whole_broken.o"
compile "$build/whole.o" "$root/target/staticlib/libvdb.a" -o "$build/whole"
wrapped=open_file,grid_numbered,grid_named,grid_entry_numbered,grid_entry_named,open_grid_numbered,open_grid_named,fill_leaves_numbered,leaf_origins_numbered,walk
compile "$build/whole.o" "$build/whole_broken.o" "$root/target/staticlib/libvdb.a" -Wl,--wrap=vdb_"${wrapped//,/,--wrap=vdb_}" -o "$build/whole_broken"
