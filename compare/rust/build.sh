#!/usr/bin/env bash
# Builds `dump` over the three Rust files, unchanged, in target/compare/rust.
#
#     build.sh SOURCE        SOURCE is the directory of reader.rs, data_structure.rs, transform.rs
#
# The crates that they need come from Debian's pool, each compared with its sum in crates.sha256. Where glam is not to be
# had, or STANDINS=all is set, our stand-in takes its place.
# checked/dump has overflow checks, release/dump has none.
set -euo pipefail
here=$(cd "$(dirname "$0")" && pwd)
source=${1:?the directory of reader.rs, data_structure.rs and transform.rs}
build=$(cd "$here/../.." && pwd)/target/compare/rust
# where this machine has its packages from
pool=${DEBIAN_MIRROR:-$(apt-get indextargets --format '$(REPO_URI)' 'Created-By: Packages' | grep -v security | head -n 1)}
mkdir -p "$build/debs" "$build/vdb"

(cd "$source" && sha256sum --quiet -c "$here/source.sha256")

# The crates, as a directory that cargo takes in place of its registry.
rm -rf "$build/crates" "$build/unpacked"
mkdir -p "$build/crates"
while read -r sum path; do
    deb=$build/debs/${path##*/}
    if ! echo "$sum  $deb" | sha256sum --status -c 2>/dev/null; then
        curl -sfL --retry 2 -m 120 -o "$deb" "${pool%/}/$path" || rm -f "$deb"
    fi
    if echo "$sum  $deb" | sha256sum --status -c 2>/dev/null; then
        dpkg-deb -x "$deb" "$build/unpacked"
    else
        echo "not to be had: $path"
        [[ $path == */rust-glam/* ]] || exit 1
    fi
done < "$here/crates.sha256"
mv "$build"/unpacked/usr/share/cargo/registry/* "$build/crates"
# Newer standard libraries have a type of the name of radium's trait; this says which one is meant.
sed -i 's/^use crate::marker::\*;/use crate::marker::{Atomic, *};/' "$build"/crates/radium-*/src/lib.rs
for name in blosc-src glam; do
    if ! compgen -G "$build/crates/$name-[0-9]*" > /dev/null || [ "${STANDINS:-}" = all ]; then
        echo "stand-in for $name"
        rm -rf "$build"/crates/$name-[0-9]*
        cp -r "$here/standins/$name" "$build/crates/$name-0.0.0"
        echo '{"files":{}}' > "$build/crates/$name-0.0.0/.cargo-checksum.json"
    fi
done

# The package: our root, our coordinates, the customer's three files.
rm -rf "$build/vdb"
cp -r "$here/vdb" "$build/vdb"
cp "$source"/{reader,data_structure,transform}.rs "$build/vdb/src"
mkdir -p "$build/vdb/.cargo"
cat > "$build/vdb/.cargo/config.toml" <<END
[source.crates-io]
replace-with = "debian"
[source.debian]
directory = "$build/crates"
[build]
target-dir = "$build/cargo"
END

cd "$build/vdb"
nice cargo build --offline --quiet
nice cargo build --offline --quiet --release
mkdir -p "$build/checked" "$build/release"
cp "$build/cargo/debug/dump" "$build/checked/dump"
cp "$build/cargo/release/dump" "$build/release/dump"
