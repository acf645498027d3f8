#!/bin/sh
# Makes target/staticlib/libmenqachu.a: the exported calls (crate menqachu_c) as a static library for C and Rust. They allocate
# nothing and read no file, so it is linked alone, without the archives of the kit.
#   tools/archive.sh                     by `rt lib`, which proves what lies below menqachu_c where that is not kept in crates/*/out
#   tools/archive.sh --built [FOLDER]    over the libraries that stand in crates/*/out, as `rt ci` or `rt lib` left them, so that
#                                        menqachu_c alone is proved; FOLDER is another place for the archive, and RATTLE_TOOLCHAIN
#                                        names other tools to compile it with (trials/instrument.sh). By default it is the same,
#                                        byte by byte
# RATTLE_HOME names the kit, if rt is not a link into it.
set -eu
cd "$(dirname "$0")/.."
folder=$PWD/${2:-target/staticlib}
mkdir -p "$folder"
cd crates/menqachu_c
if [ "${1:-}" = --built ]; then
    kit=${RATTLE_HOME:-$(dirname "$(dirname "$(readlink -f "$(command -v rt)")")")}
    mkdir -p out
    set -- --crate-name menqachu_c src/lib.rt --extern "std=$kit/rlibs/std.rlib" -L "dependency=$kit/rlibs"
    for library in $(sed -n 's/^menqachu_c  *staticlib *://p' ../../crates.txt); do
        set -- "$@" --extern "$library=../$library/out/rlib/$library.rlib"
    done
    for built in ../*/out/rlib; do set -- "$@" -L "dependency=$built"; done
    "$kit/bin/rattle" build "$@" --links menqachu_c= --crate-type staticlib --backend llvm \
        --antt-project "$kit/rattle/logic/antt-project.json" --logic-built "$kit/logic_built" \
        --toolchain "${RATTLE_TOOLCHAIN:-$kit/toolchain}" -o out/libmenqachu_c.a
else
    rt lib
fi
cp out/libmenqachu_c.a "$folder/libmenqachu.a"
echo "$folder/libmenqachu.a"
