#!/bin/sh
# Measures anew and puts the table into docs/PERFORMANCE.md: performance.sh SOURCES, with SOURCES as scale.sh has it. Run it on
# a machine that does nothing else.
set -eu
[ $# -eq 1 ] || {
    echo "usage: performance.sh SOURCES" >&2
    exit 2
}
METADATA_GEN_SRC=$(cd "$1" && pwd)
export METADATA_GEN_SRC
cd "$(dirname "$0")"
cargo build --release --offline -j1
page=../docs/PERFORMANCE.md
measured=$(mktemp)
trap 'rm -f "$measured"' EXIT
archive=$(sha256sum <../target/staticlib/libmenqachu.a | cut -c1-16)
cpu=$(sed -n 's/^model name[^:]*: //p' /proc/cpuinfo | head -n 1)
sed '/^Measured on /,$d' "$page" >"$measured"
{
    echo "Measured on $(date -u +%F) at commit $(git rev-parse --short=12 HEAD), archive $archive (the front of its SHA-256), made by $(rt version), on $(nproc) cores of"
    echo "$cpu; the machine's load was $(cut -d' ' -f1 /proc/loadavg) before the run began."
    echo
    target/release/trials bench
} >>"$measured"
cat "$measured" >"$page"
