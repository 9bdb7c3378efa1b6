#!/bin/sh
# Runs the tests of the libraries, without proving them: the toolchain's checked build stops at a failed assert, at an index out of
# bounds, at an overflow and at a bad access. Their files end in .rs, so that no proof reads them: tests/libraries/NAME/ is the crate
# NAME, whose libraries are in tests/libraries/uses.txt, since rt ci takes one crates.txt. Files of cs_tool_tests are added to those
# of the crate that is proved, for its fixtures.
# usage: tests/libraries.sh [NAME..]

cd "$(dirname -- "$0")/.." || exit 2
command -v rt > /dev/null || { echo 'skipped: the tests of the libraries, which need the toolchain (rt)'; exit 0; }
top=$PWD
room=$(mktemp -d)
trap 'rm -rf "$room"' EXIT
trap 'exit 130' INT
trap 'exit 143' TERM
cp HANDLES "$room/"
cat crates.txt tests/libraries/uses.txt > "$room/crates.txt"
tar -cf - --exclude=out --exclude=mutants --exclude=must-fail crates | tar -C "$room" -xf -
for folder in tests/libraries/*/; do
    name=$(basename "$folder")
    mkdir -p "$room/crates/$name/src"
    (cd "$folder" && find . -name '*.rs') | while read -r file; do
        mkdir -p "$room/crates/$name/src/$(dirname "$file")"
        cp "$folder/$file" "$room/crates/$name/src/${file%.rs}.rt"
    done
done

# Formats a crate, and fails if its files here are not in that layout, as rt ci does for the crates that it proves.
has_layout() {
    rt fmt > /dev/null || return
    others=$(find src -name '*.rt' | while read -r file; do
        kept=tests/libraries/$1/${file#src/}
        kept=${kept%.rt}.rs
        [ ! -f "$top/$kept" ] || diff -u --label "$kept" "$top/$kept" --label 'rt fmt' "$file"
    done)
    [ -z "$others" ] || { echo "$others" >&2; return 1; }
}

[ $# -gt 0 ] || set -- $(cd tests/libraries && echo *_tests)
status=0
for name; do
    echo "tests/libraries.sh: $name"
    (cd "$room/crates/$name" && has_layout "$name" && rt try --test --seconds 900 < /dev/null) || status=1
done
exit $status
