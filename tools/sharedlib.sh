#!/bin/sh
# Makes a shared library of the proved calls, for languages that load one while they run (include/example.py does).
# tools/sharedlib.sh [FOLDER]: FOLDER/libmenqachu.so, by default in target/shared. It takes the archive of
# tools/archive.sh, or the one in the folder that MENQACHU_ARCHIVE names, and shows the exported calls alone.
set -eu
cd "$(dirname "$0")/.."
archive=${MENQACHU_ARCHIVE:-target/staticlib}/libmenqachu.a
folder=${1:-target/shared}
if [ ! -f "$archive" ]; then
    echo "there is no $archive: run \`tools/archive.sh\` first" >&2
    exit 1
fi
mkdir -p "$folder"
shown=$(mktemp)
trap 'rm -f "$shown"' EXIT
echo '{ global: menqachu_*; local: *; };' >"$shown"
gcc -shared -o "$folder/libmenqachu.so" -Wl,--whole-archive "$archive" -Wl,--no-whole-archive \
    -Wl,--version-script="$shown" -Wl,-soname,libmenqachu.so -Wl,-z,defs
echo "$folder/libmenqachu.so"
