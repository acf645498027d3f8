#!/bin/sh
# Two archives of the exported calls in one run: against.sh SOURCES FOLDER, with SOURCES as scale.sh has it. FOLDER is the root
# of another clone with target/staticlib/libmenqachu.a as tools/archive.sh leaves it, or a folder with libmenqachu.a.
# Prints the time of each call of this clone's archive beside the other's, and the instructions of the check, as Markdown.
# Needs cargo, objcopy and valgrind. Times are worth something on a machine that does nothing else; instructions always are.
set -eu
[ $# -eq 2 ] || {
    echo "usage: against.sh SOURCES FOLDER" >&2
    exit 2
}
METADATA_GEN_SRC=$(cd "$1" && pwd)
MENQACHU_AGAINST=$(cd "$2" && pwd)
export METADATA_GEN_SRC MENQACHU_AGAINST
cd "$(dirname "$0")"
CARGO_TARGET_DIR=$PWD/../target/against
export CARGO_TARGET_DIR
trials=$CARGO_TARGET_DIR/release/trials
turns=20

cargo build --release --offline -j1 --quiet
"$trials" bench --against "$MENQACHU_AGAINST"

counted=$(mktemp)
trap 'rm -f "$counted"' EXIT

# The instructions of one check, counted while control is in the exported function: instructions SYMBOL INPUT ARGUMENTS..
instructions() {
    symbol=$1
    input=$2
    shift 2
    valgrind --tool=callgrind --callgrind-out-file=/dev/null --toggle-collect="$symbol" --log-file="$counted" \
        "$trials" repeat check "$input" "$turns" "$@"
    all=$(sed -n 's/^==[0-9]*== Collected : \([0-9]*\)$/\1/p' "$counted")
    echo $((all / turns))
}

printf '\n| call | input | this archive, instructions | the other | this / the other |\n|---|---|---|---|---|\n'
for input in small realistic; do
    this=$(instructions menqachu_check "$input")
    other=$(instructions other_menqachu_check "$input" --against "$MENQACHU_AGAINST")
    printf '| check | %s | %s | %s | %s |\n' "$input" "$this" "$other" \
        "$(awk "BEGIN { printf \"%.4f\", $this / $other }")"
done
