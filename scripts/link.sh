#!/bin/sh
# Links an object file of rt into a static program, by the toolchain's linker and the C library of proved/libc. So each machine with
# this toolchain makes the same bytes, whatever C library and compiler it has.
# usage: scripts/link.sh OBJECT PROGRAM

cd "$(dirname -- "$0")/.." || exit 2
kit=$(dirname "$(rt doc)")
c=proved/libc
exec "$kit/toolchain/bin/ld.lld" -static -s --build-id=none --gc-sections -z relro -z now -o "$2" $c/crt1.o $c/crti.o $c/crtbeginT.o "$1" \
    --start-group "$kit/c/libos_c.a" "$kit/c/liblibc_c.a" $c/libc.a --end-group $c/crtend.o $c/crtn.o
