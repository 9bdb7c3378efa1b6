#!/bin/sh
# Fills proved/libc, which scripts/link.sh links with: the parts of this machine's C library that the program needs, its packages and
# its licence. It is run for a newer C library, and if the program needs other parts.
# usage: scripts/libc.sh OBJECT    an object file of rt, as crates/codesearch/out/codesearch.o

object=$(realpath -- "$1") || exit 2
cd "$(dirname -- "$0")/.." || exit 2
set -e
kit=$(dirname "$(rt doc)")
here=$PWD
fresh=$(mktemp -d)
trap 'rm -rf "$fresh"' EXIT
to=$here/proved/libc
mkdir -p "$to"
for file in crt1.o crti.o crtbeginT.o crtend.o crtn.o; do cp "$(cc -print-file-name=$file)" "$to/$file"; done
libc=$(cc -print-file-name=libc.a) gcc=$(cc -print-file-name=libgcc.a) eh=$(cc -print-file-name=libgcc_eh.a)
"$kit/toolchain/bin/ld.lld" -static --trace -o "$fresh/program" "$to/crt1.o" "$to/crti.o" "$to/crtbeginT.o" "$object" --start-group \
    "$kit/c/libos_c.a" "$kit/c/liblibc_c.a" "$libc" "$gcc" "$eh" --end-group "$to/crtend.o" "$to/crtn.o" > "$fresh/trace"
# The members that were taken, in this order; a name can be that of two members.
rm -f "$to/libc.a"
cp /usr/share/common-licenses/LGPL-2.1 "$to/LGPL-2.1"
for archive in "$libc" "$gcc" "$eh"; do
    mkdir "$fresh/members" && cd "$fresh/members"
    grep -F "$archive(" "$fresh/trace" | sed 's/.*(\(.*\)).*/\1/' | sort -u > ../names
    [ -z "$(ar t "$archive" | grep -xFf ../names | sort | uniq -d)" ] || { echo "codesearch: two members of $archive have one name" >&2; exit 1; }
    xargs ar x "$archive" < ../names
    find . -type f | sort | xargs ar qcDS "$to/libc.a"
    cd "$here" && rm -r "$fresh/members"
done
ranlib -D "$to/libc.a"
{
    dpkg-query -W -f '${Package} ${Version}\n' libc6-dev "$(dpkg -S "$gcc" | sed 's/:.*//')" 2> /dev/null || :
    sha256sum "$libc" "$gcc" "$eh" | sed 's/\(.*\)  .*\/\(.*\)/\2 \1/'
} > "$to/SOURCE"
