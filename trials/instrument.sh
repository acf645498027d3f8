#!/bin/sh
# Builds the archive of the exported calls once more with a counter on every edge, for `trials fuzz`: the same proved code,
# lowered to the same LLVM module, compiled by the toolchain's own clang with -fsanitize-coverage=inline-8bit-counters added.
# Needs the libraries that tools/archive.sh or the gate has left in crates/*/out. Leaves target/fuzz/libmenqachu.a, and never
# touches target/staticlib. RATTLE_HOME names the kit, if rt is not a link into it.
set -eu
cd "$(dirname "$0")/.."
home=${RATTLE_HOME:-$(dirname "$(dirname "$(readlink -f "$(command -v rt)")")")}
own=$home/toolchain
tools=$PWD/target/fuzz/toolchain

rm -rf "$tools"
mkdir -p "$tools/bin"
for each in "$own"/bin/*; do ln -s "$each" "$tools/bin/"; done
ln -s "$own/lib" "$tools/lib"
rm "$tools/bin/clang"
cat >"$tools/bin/clang" <<END
#!/bin/sh
exec "$own/bin/clang" "\$@" -fsanitize-coverage=inline-8bit-counters
END
chmod +x "$tools/bin/clang"

RATTLE_TOOLCHAIN=$tools tools/archive.sh --built target/fuzz
