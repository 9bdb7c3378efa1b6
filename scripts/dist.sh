#!/bin/sh
# Makes the archive of the built program: a static program for each Linux on x86-64, a faster one for newer processors
# if the toolchain makes it, the tools, the library for C and Rust if it is built, manual, completions, editor files, and
# install.sh. Two builds give the same bytes.
# usage: scripts/dist.sh FOLDER    the archive is FOLDER/codesearch-VERSION-linux-x86_64.tar.gz

. "$(dirname -- "$0")/release.sh"
name=codesearch-$version-linux-x86_64
top=$fresh/$name
mkdir -p "$top/bin"

scripts/link.sh crates/codesearch/out/codesearch.o "$top/bin/codesearch"
# install.sh chooses this one if it runs.
[ -z "$newer" ] || scripts/link.sh crates/codesearch/out/codesearch-v3.o "$top/bin/codesearch-v3"
cp bin/csparts "$top/bin"
library=out/lib
if [ -f "$library/libcodesearch.a" ]; then
    mkdir "$top/lib" "$top/include"
    cp "$library/libcodesearch.a" "$library/libcodesearch.so.$version" "$top/lib"
    cp include/codesearch.h "$top/include"
    mkdir -p "$top/bindings/rust/src" "$top/bindings/rust/tests"
    (cd bindings/rust && cp Cargo.toml build.rs "$top/bindings/rust" && cp src/*.rs "$top/bindings/rust/src" && cp tests/*.rs "$top/bindings/rust/tests")
    cp -r examples "$top/examples"
fi
mkdir "$top/man" "$top/completion" "$top/editors"
cp man/*.[157] "$top/man"
cp completion/* "$top/completion"
cp editors/* "$top/editors"
cp LICENSE NOTICE VERSION CHANGELOG.md README.md docs/USE.md scripts/install.sh proved/libc/LGPL-2.1 "$top"
find "$top" -type d -exec chmod 755 {} +
find "$top" -type f -exec chmod 644 {} +
chmod 755 "$top"/bin/* "$top/install.sh"
tar -C "$fresh" --sort=name --owner=0 --group=0 --numeric-owner --mtime="@$SOURCE_DATE_EPOCH" --format=ustar -cf - "$name" | gzip -9n > "$out/$name.tar.gz"
printf '%s\n' "$out/$name.tar.gz"
