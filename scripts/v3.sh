#!/bin/sh
# Builds the program for newer processors (x86-64-v3) over what is proved: crates/codesearch/out/codesearch-v3 and its object file.
# `make install`, `make dist` and `make deb` run it.
# usage: scripts/v3.sh

cd "$(dirname -- "$0")/../crates/codesearch/out" || exit 2
set -e
kept=$(mktemp -d)
# rt writes this program where the other one is, and runs it, which fails on an older processor.
cp -p codesearch codesearch.o "$kept"
[ ! -f codesearch.stamp ] || cp -p codesearch.stamp "$kept"
trap 'cp -p "$kept"/* .; rm -rf "$kept"' EXIT
trap 'exit 130' INT
trap 'exit 143' TERM
rm codesearch
printf '\n' | (cd .. && rt run --cpu x86-64-v3 -- cgrep '^$') > v3.log 2>&1 || :
[ -x codesearch ] || { cat v3.log >&2; exit 1; }
mv codesearch codesearch-v3
mv codesearch.o codesearch-v3.o
