#!/bin/sh
# Installs the Debian packages that the oracle builds with, if they are not
# there, and builds it. METADATA_GEN_SRC names the folder that holds layout.rs,
# schema.rs and released.rs of metadata-gen.
set -eu

: "${METADATA_GEN_SRC:?names the folder of layout.rs, schema.rs and released.rs}"
METADATA_GEN_SRC=$(cd "$METADATA_GEN_SRC" && pwd)
export METADATA_GEN_SRC

packages="librust-serde-dev librust-serde-derive-dev librust-serde-json-dev librust-toml-dev"
# shellcheck disable=SC2086
dpkg -s $packages >/dev/null 2>&1 || apt-get install -y $packages

# .cargo/config.toml is found from the package's own folder.
cd "$(dirname "$0")"
cargo build --release --offline -j1
