#!/bin/sh
# Makes the shared object of the library, by the C compiler, if there is one.
# usage: scripts/shared.sh FOLDER    FOLDER has libcodesearch.a, and gets libcodesearch.so

here=$(dirname -- "$0")/..
set -e
version=$(cat "$here/VERSION")
major=${version%%.*}
for tool in cc strip; do
    command -v $tool > /dev/null || { echo "codesearch: libcodesearch.so is not made: there is no $tool" >&2; exit 0; }
done
cd "$1"
map=$(mktemp)
trap 'rm -f "$map"' EXIT
printf 'CODESEARCH_%s { global: cs_*; local: *; };\n' "$major" > "$map"
cc -shared -o "libcodesearch.so.$version" -Wl,--whole-archive libcodesearch.a -Wl,--no-whole-archive \
    -Wl,--version-script="$map" -Wl,-soname,"libcodesearch.so.$major" -Wl,-z,relro,-z,now -Wl,--build-id=none
strip --strip-unneeded "libcodesearch.so.$version"
# (copies, since rt refuses links)
cp "libcodesearch.so.$version" "libcodesearch.so.$major"
cp "libcodesearch.so.$version" libcodesearch.so
