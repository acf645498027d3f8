#!/bin/sh
# Makes the command `release` as one file to hand over: linked statically, so that it runs on any x86-64 Linux without a
# prover, Rust or a library. tools/standalone.sh [FOLDER]: FOLDER/release and FOLDER/release.sha256, by default in
# target/standalone. `release --version` has the revision of the proved library, as it is in this repository, and the
# SHA-256 of its archive, which is that of tools/archive.sh or the one in the folder that MENQACHU_ARCHIVE names.
set -eu
cd "$(dirname "$0")/.."
archive=${MENQACHU_ARCHIVE:-target/staticlib}/libmenqachu.a
folder=${1:-target/standalone}
if [ ! -f "$archive" ]; then
    echo "there is no $archive: run \`tools/archive.sh\` first" >&2
    exit 1
fi
mkdir -p "$folder"
host=$(rustc -vV | sed -n 's/^host: //p')
built=${CARGO_TARGET_DIR:-release/target}/$host/release/release
RUSTFLAGS='-C target-feature=+crt-static' \
    cargo build --quiet --offline --release --manifest-path release/Cargo.toml --bin release --target "$host"
if readelf --program-headers "$built" | grep -q INTERP; then
    echo "$built asks for a loader: it is not linked statically" >&2
    exit 1
fi
cp "$built" "$folder/release"
strip "$folder/release"
(cd "$folder" && sha256sum release >release.sha256 && cat release.sha256 && ./release --version)
