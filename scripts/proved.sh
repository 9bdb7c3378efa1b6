#!/bin/sh
# The folder proved/: the programs and the library as a proof build made them, for who has no toolchain, the parts of the C library
# that the programs have, and SUMS: the version, the toolchain, and SHA-256 of each crate, of each object file as the toolchain
# left it, and of each file of proved/. The sum of a crate is over its line in crates.txt and the names and sums of the files of its
# src/, specs/ and proofs/: all that its verdict rests on. proved/ fits the sources if it has the sums of today's crates.
# usage: scripts/proved.sh program    prints the program of proved/ for this processor; a line on standard error names the crates
#                                     that have changed since. The status is 1 where there is none, and 2 where none runs
#        scripts/proved.sh where      prints, as make's variables, what make takes of proved/: nothing where crates have changed
#                                     since, or where a program or a library is built here. The status is 2 where none runs
#        scripts/proved.sh make       fills proved/ from what `make program lib` has built
#        scripts/proved.sh check      compares proved/ with what is built: `make check` runs it

cd "$(dirname -- "$0")/.." || exit 2
LC_ALL=C
export LC_ALL
sums=proved/SUMS
objects='crates/codesearch/out/codesearch.o crates/codesearch/out/codesearch-v3.o crates/codesearch_c/out/libcodesearch_c.a'
fresh=$(mktemp -d) || exit 2
trap 'rm -rf "$fresh"' EXIT
trap 'exit 130' INT
trap 'exit 143' TERM

# say WORD..: a line on standard error
say() { printf 'codesearch: %s\n' "$*" >&2; }

# sum_of: SHA-256 of standard input
sum_of() { sha256sum | cut -d' ' -f1; }

# crates TARGET..: the lines of SUMS of the crates that the targets need
crates() {
    for target do awk -f scripts/crates.awk -v target="$target" crates.txt; done | sort -u | while read -r crate; do
        folder=crates/$crate
        printf 'crate %s %s\n' "$crate" "$({
            grep "^$crate[ :]" crates.txt
            find "$folder/src" "$folder/specs" "$folder/proofs" -type f 2> /dev/null | sort | tr '\n' '\0' | xargs -0 sha256sum
        } | sum_of)"
    done
}

# files FOLDER: the lines of SUMS of the files of proved/
files() { (cd "$1" && find . -type f ! -name SUMS | sort | xargs sha256sum) | sed 's/^\([^ ]*\)  \.\/\(.*\)/file \2 \1/'; }

# changed TARGET..: the crates that are not as SUMS has them
changed() { crates "$@" | grep -vxFf "$sums" | cut -d' ' -f2 | tr '\n' ' ' | sed 's/ $//'; }

# are_whole: whether the files of proved/ are those of SUMS, and a line with the others
are_whole() {
    files proved > "$fresh/came"
    grep '^file ' "$sums" > "$fresh/wanted"
    others=$(cat "$fresh/came" "$fresh/wanted" | sort | uniq -u | cut -d' ' -f2 | sort -u | tr '\n' ' ')
    [ -z "$others" ] || { say "these files of proved/ are not those of its SUMS: $others(git checkout proved, or make proved)"; false; }
}

# fits TARGET: whether proved/ is whole and fits the sources, or else `others` has the crates that have changed. What was found is
# known as long as no file is newer than out/proved/TARGET.
fits() {
    known=out/proved/$1
    [ -z "$(find crates crates.txt proved -name out -prune -o -newer "$known" -print -quit 2>&1)" ] && return
    are_whole || exit 2
    others=$(changed "$1")
    [ -z "$others" ] || return
    { mkdir -p out/proved && touch "$known"; } 2> /dev/null
    return 0
}

# runs PROGRAM: whether this processor runs it: a search without a match has status 1
runs() { ("$1" cgrep x < /dev/null > /dev/null 2>&1; [ $? = 1 ]) 2> /dev/null; }

# best: the program that this processor runs
best() {
    if runs proved/codesearch-v3; then echo proved/codesearch-v3
    elif runs proved/codesearch; then echo proved/codesearch
    else
        say 'the programs of proved/ need a processor of x86-64-v2 (with SSE4.2, SSSE3 and POPCNT), and this one runs neither'
        false
    fi
}

# is_there: whether there is a folder proved/ for machines of this kind
is_there() {
    [ -f "$sums" ] || return
    [ "$(uname -sm)" = 'Linux x86_64' ] || { say "the programs of proved/ are for Linux on x86-64, and this is $(uname -sm)"; exit 2; }
}

# fill FOLDER: makes what proved/ has to be, from what is built; proved/libc is as it is
fill() {
    for file in $objects; do [ -f "$file" ] || { say "there is no $file: make program lib"; exit 2; }; done
    [ -d "$1/libc" ] || cp -r proved/libc "$1/libc" || exit 2
    scripts/link.sh crates/codesearch/out/codesearch.o "$1/codesearch" &&
        scripts/link.sh crates/codesearch/out/codesearch-v3.o "$1/codesearch-v3" &&
        cp out/lib/libcodesearch.a "$1/libcodesearch.a" || exit 2
    {
        printf 'version %s\n' "$(cat VERSION)"
        printf 'kit %s\n' "$(rt version | head -n 1)"
        crates codesearch codesearch_c
        for file in $objects; do printf 'object %s %s\n' "${file##*/}" "$(sum_of < "$file")"; done
        files "$1"
    } > "$fresh/SUMS"
    mv "$fresh/SUMS" "$1/SUMS"
}

case $1 in
    program)
        is_there || exit 1
        fits codesearch ||
            say "this is the proved program of $(head -n 1 "$sums"); since then these crates have changed: $others (make program proves this one)"
        program=$(best) || exit 2
        printf '%s/%s\n' "$PWD" "$program"
        ;;
    where)
        is_there || exit 0
        [ -f crates/codesearch/out/codesearch ] || ! fits codesearch || {
            best > /dev/null || exit 2
            echo program=proved/codesearch v3=proved/codesearch-v3
        }
        [ -f out/lib/libcodesearch.a ] || ! fits codesearch_c || echo library=out/proved/lib/libcodesearch.a
        ;;
    make)
        [ -d proved/libc ] || scripts/libc.sh crates/codesearch/out/codesearch.o || exit 2
        fill proved
        ;;
    check)
        [ -f "$sums" ] || { say 'there is no proved/SUMS: make proved'; exit 1; }
        are_whole || exit 1
        others=$(changed codesearch codesearch_c)
        if [ -n "$others" ]; then
            made=$(head -n 1 "$sums")
            [ "version $(cat VERSION)" = "$made" ] || { say "proved/ is of $made, and VERSION is $(cat VERSION): make proved"; exit 1; }
            echo "codesearch: proved/ is of earlier sources: since then these crates have changed: $others"
            exit
        fi
        # (rt ci makes no program for newer processors)
        [ -f crates/codesearch/out/codesearch-v3.o ] || make --silent --no-print-directory crates/codesearch/out/codesearch-v3
        mkdir "$fresh/proved"
        fill "$fresh/proved"
        diff -r "$fresh/proved" proved >&2 || {
            say 'proved/ is not what the proof of these sources gives: make proved, and commit it'
            exit 1
        }
        ;;
    *)
        sed -n 's/^# usage: *//p; s/^#        //p' "$0" >&2
        exit 2
        ;;
esac
