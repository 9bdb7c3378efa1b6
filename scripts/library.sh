#!/bin/sh
# Proves the library for C and Rust, and makes its archive and its shared object. `make lib` runs it.
# usage: scripts/library.sh [FOLDER]    FOLDER gets libcodesearch.a and libcodesearch.so; it is out/lib

cd "$(dirname -- "$0")/.." || exit 2
set -e
kit=$(dirname "$(rt doc)")
crate=crates/codesearch_c
to=${1:-out/lib}
mkdir -p "$to"
scripts/program.sh codesearch_c
# After `rt ci` rt may take the proofs from an earlier run, and have no archive. With no stamp, it compiles again.
if [ ! -f "$crate/out/libcodesearch_c.a" ]; then
    rm -f "$crate"/out/*.stamp
    scripts/program.sh codesearch_c
fi
# The archive has the crate's object and the two functions of the kit that call malloc, realloc and free. The toolchain's ar gives
# the same bytes on each machine.
fresh=$(mktemp -d)
trap 'rm -rf "$fresh"' EXIT
cp "$crate/out/libcodesearch_c.a" "$fresh/libcodesearch.a"
(cd "$fresh" && "$kit/toolchain/bin/llvm-ar" x "$kit/c/liblibc_c.a" && "$kit/toolchain/bin/llvm-ar" rcsD libcodesearch.a ./*.o)
cp "$fresh/libcodesearch.a" "$to/libcodesearch.a"
scripts/shared.sh "$to"
