#!/bin/sh
# The whole run against the Rust, with its recorded seeds: scale.sh SOURCES [REPORT]. SOURCES is the folder of layout.rs,
# schema.rs and released.rs of metadata-gen; REPORT is the Markdown file that is written, RESULTS.md here if none is named.
# Needs target/staticlib/libmenqachu.a and crates/*/out as tools/archive.sh leaves them, cargo and valgrind. Every step must
# find nothing amiss, or the script ends there with a status other than 0. SHARE is the part of the counts to run, in
# per cent: with 1 it takes some minutes and shows that all steps work.
set -eu
[ $# -ge 1 ] || {
    echo "usage: scale.sh SOURCES [REPORT]" >&2
    exit 2
}
METADATA_GEN_SRC=$(cd "$1" && pwd)
export METADATA_GEN_SRC
report=${2:-$(dirname "$0")/RESULTS.md}
mkdir -p "$(dirname "$report")"
report=$(cd "$(dirname "$report")" && pwd)/$(basename "$report")
cd "$(dirname "$0")"
trials=$PWD/target/release/trials
archive=$PWD/../target/staticlib/libmenqachu.a
searching=$PWD/../target/fuzz

# A count, or the part of it that SHARE asks for.
of() { echo $(($1 * ${SHARE:-100} / 100)); }

# Runs a step with low priority; what it prints goes to the report under its first word.
step() {
    title=$1
    shift
    echo "scale: $title"
    start=$(date +%s)
    printf '## %s\n\n' "$title" >>"$report"
    nice -n 15 "$@" >>"$report"
    printf '\n(%s seconds)\n\n' "$(($(date +%s) - start))" >>"$report"
}

nice -n 15 cargo build --release --offline -j1
./instrument.sh >/dev/null
MENQACHU_ARCHIVE=$searching CARGO_TARGET_DIR=$searching/cargo nice -n 15 cargo build --release --offline -j1

{
    printf '# Results of the run of %s\n\n' "$(date -u +%F)"
    printf 'Written by scale.sh. The archive begins its SHA-256 with %s; ' "$(sha256sum <"$archive" | cut -c1-16)"
    printf 'the commit was %s, the kit %s.\n\n' "$(git rev-parse --short=12 HEAD)" "$(rt version)"
} >"$report"
step "checks, seed 101, $(of 500000) pairs" "$trials" checks 101 "$(of 500000)" "$(of 500)"
step "lists, seed 102, $(of 100000) records" "$trials" lists 102 "$(of 100000)"
step "owners, seed 103, $(of 100000) records" "$trials" owners 103 "$(of 100000)"
step "pointers, seed 108, $(of 100000) records" "$trials" pointers 108 "$(of 100000)"
step "chains, seed 104, $(of 8000) chains" "$trials" chains 104 "$(of 8000)"
step "pairs, seed 203, $(of 100000) pairs of byte strings" "$trials" pairs 203 "$(of 100000)"
step "pools, seed 206, $(of 100000) pools" "$trials" pools 206 "$(of 100000)"
step "load, seed 109, $(of 1000000) pairs" "$trials" load 109 "$(of 1000000)"
step "drafts, seed 110, $(of 100000) series" "$trials" drafts 110 "$(of 100000)"
step "shelf, seed 211, $(of 100000) series" "$trials" shelf 211 "$(of 100000)"
step "memcheck, seed 105, $(of 3000) pairs" valgrind -q --error-exitcode=1 "$trials" memcheck 105 "$(of 3000)"
step "drafts under valgrind, seed 111, $(of 300) series" valgrind -q --error-exitcode=1 "$trials" drafts 111 "$(of 300)"
step "shelf under valgrind, seed 212, $(of 300) series" valgrind -q --error-exitcode=1 "$trials" shelf 212 "$(of 300)"
step "sections, seed 107, $(of 20000) pairs and a control of $(of 1000)" "$trials" sections 107 "$(of 20000)"
step "load under memcheck, seed 110, $(of 3000) pairs" valgrind -q --error-exitcode=1 "$trials" load 110 "$(of 3000)"
step "stack" "$trials" stack
step "fuzz, seed 106, $(of 1500) seconds" "$searching/cargo/release/trials" fuzz "$(of 1500)" 106 "$searching/found"
echo "scale: nothing amiss; $report"
