#!/bin/sh
# Runs the program from a shell, in a fresh folder, and compares its output and its status.
# usage: tests/shell/end_to_end.sh PROGRAM
# A failing case prints its command, what was wanted and what came. The last line is 'N passed, M failed'.

program=$(readlink -f -- "$1") || exit 2
root=$(dirname -- "$(readlink -f -- "$0")")/../..
home=$(mktemp -d) || exit 2
trap 'rm -rf "$home"' EXIT
cd "$home" || exit 2
mkdir files results
passed=0
failed=0

# The Go tools, if they are installed.
go_cindex=$(command -v cindex)
go_csearch=$(command -v csearch)

# The command of a case is shell text, so that it is shown as one would type it. These functions stand for the program.
codesearch() { "$program" "$@"; }
cgrep() { "$program" cgrep "$@"; }
cindex() { "$program" cindex "$@"; }
csearch() { "$program" csearch "$@"; }
export CSEARCHINDEX="$home/index"

show() {
    printf '    %s:\n' "$1"
    head -c 400 "$2" | sed 's/^/        /'
    printf '\n'
}

# verdict COMMAND: compares the results with the wanted ones
verdict() {
    if cmp -s results/out results/wanted.out && cmp -s results/err results/wanted.err && [ "$came" = "$wanted" ]; then
        passed=$((passed + 1))
        return
    fi
    failed=$((failed + 1))
    printf 'FAILED: %s\n    status: wanted %s, came %s\n' "$1" "$wanted" "$came"
    show 'output wanted' results/wanted.out
    show 'output came' results/out
    show 'error wanted' results/wanted.err
    show 'error came' results/err
}

# try STATUS OUTPUT ERROR COMMAND: OUTPUT and ERROR as printf writes them; standard input is empty unless COMMAND redirects
# it
try() {
    wanted=$1
    printf -- "$2" > results/wanted.out
    printf -- "$3" > results/wanted.err
    eval "$4" > results/out 2> results/err < /dev/null
    came=$?
    verdict "$4"
}

# same COMMAND OTHER: both print the same bytes with the same status
same() {
    eval "$2" > results/wanted.out 2> results/wanted.err < /dev/null
    wanted=$?
    eval "$1" > results/out 2> results/err < /dev/null
    came=$?
    verdict "$1    (as: $2)"
}

# holds COMMAND: a command of the shell that has to succeed
holds() {
    : > results/wanted.out
    : > results/wanted.err
    wanted=0
    eval "$1" > results/out 2> results/err < /dev/null
    came=$?
    verdict "$1"
}

skipped() { printf 'skipped: %s\n' "$1"; }

# Root may read and write protected files, unless it gives up that capability.
powerless() { "$@"; }
if [ "$(id -u)" -eq 0 ]; then
    powers=-dac_override,-dac_read_search
    powerless() { setpriv --bounding-set $powers --inh-caps $powers "$@"; }
fi
printf 'one\n' > files/locked
chmod 000 files/locked
# Whether a protected file is protected from `powerless PROGRAM ..`.
shuts() { powerless true 2>/dev/null && ! powerless cat files/locked > /dev/null 2>&1; }

# ---- standard input -------------------------------------------------------------------------------------------------
printf 'ab\nxacb\nabd' > files/lines
try 0 '<standard input>:ab\n<standard input>:xacb\n' '' "cgrep 'a(b|c)*\$' < files/lines"
try 0 '<standard input>:ab\n<standard input>:xacb\n' '' "printf 'ab\nxacb\nabd' | codesearch cgrep 'a(b|c)*\$'"
try 0 '<standard input>:abd\n' '' "cgrep '^abd' < files/lines"
try 0 '<standard input>:x\n' '' "printf 'x\n' | cgrep 'a||b'"
try 1 '' '' "cgrep zzz < files/lines"
try 1 '' '' "cgrep '' < /dev/null"
try 1 '' '' "cgrep '^\$' < files/lines"
try 0 '<standard input>:\n' '' "printf '\n' | cgrep '^\$'"
try 0 '<standard input>:a\n<standard input>:\n' '' "printf 'a\n\n' | cgrep ''"
try 0 '<standard input>:ab\n' '' "printf 'ab\nba\n' | cgrep '(?P<n>a)(?<n>b)'"
try 0 '<standard input>:[\n<standard input>::\n<standard input>:a\n' '' "printf '[\n:\na\nb\n' | cgrep '^[[:a]\$'"
try 0 '<standard input>:\303\251\n' '' "printf '\303\251\ne\n' | cgrep '^\xe9\$'"
try 0 '<standard input>:A\0008\n' '' "printf 'A\0008\nA8\n' | cgrep '^\101\08\$'"
# Letters past ASCII are not folded.
try 0 '<standard input>:\303\251A\n' '' "printf '\303\211A\n\303\251A\n' | cgrep -i 'éa'"

# ---- the tool by the name of the program -----------------------------------------------------------------------------
mkdir named
for name in cgrep csearch cindex grep cgrep2; do ln -s "$program" named/$name; done
try 0 '<standard input>:ab\n' '' "named/cgrep -i AB < files/lines | head -n 1"
same "named/cgrep -n b files/lines" "cgrep -n b files/lines"
same "PATH=named command cgrep cgrep files/lines" "cgrep cgrep files/lines"
same "named/csearch x" "csearch x"
same "named/cindex -list" "cindex -list"
try 0 '<standard input>:ab\n' '' "named/grep cgrep '^ab\$' < files/lines"
try 2 '' 'codesearch: first word must be cindex, csearch or cgrep\n' "named/cgrep2 b < files/lines"
try 2 '' 'cgrep: no pattern\n' "named/cgrep"
try 2 '' 'cgrep: word 2 is not text\n' "named/cgrep b '$(printf '\377')'"
try 2 '' 'cgrep: word 2 is not text\n' "cgrep b '$(printf '\377')'"

# ---- errors ---------------------------------------------------------------------------------------------------------
first='codesearch: first word must be cindex, csearch or cgrep\n'
try 2 '' "$first" "codesearch"
try 2 '' "$first" "codesearch grep x"
try 2 '' "$first" "codesearch ''"
try 2 '' 'cgrep: no pattern\n' "cgrep"
try 2 '' 'cgrep: pattern at 2: stacked repeat\n' "cgrep 'a**' < files/lines"
try 2 '' 'cgrep: pattern at 0: nothing to repeat\n' "cgrep '*a' < files/lines"
try 2 '' 'cgrep: pattern at 1: nothing to repeat\n' "cgrep '(*a)' < files/lines"
try 2 '' 'cgrep: pattern at 0: group not closed\n' "cgrep '(a' < files/lines"
try 2 '' 'cgrep: pattern at 1: unexpected )\n' "cgrep 'a)' < files/lines"
# an argument that is not UTF-8
bad=$(printf 'a\377')
long=$(head -c 100000 /dev/zero | tr '\0' a)
try 2 '' "$first" "codesearch \"\$bad\" x files/lines"
try 2 '' "$first" "codesearch grep x \"\$bad\""
try 2 '' 'cgrep: word 1 is not text\n' "cgrep \"\$bad\" < files/lines"
try 2 '' 'cgrep: word 3 is not text\n' "cgrep a files/lines \"\$bad\" files/lines \"\$bad\""
try 2 '' 'cgrep: word 2 is not text\n' "cgrep -x \"\$bad\""
try 2 '' 'csearch: word 2 is not text\n' "csearch -l \"\$bad\""
try 2 '' 'cindex: word 1 is not text\n' "cindex \"\$bad\""
try 2 '' 'cgrep: word 2 is not text\n' "cgrep \"\$long\" \"\$long\$bad\""
try 2 '' 'cgrep: pattern at 0: pattern too large\n' "cgrep \"\$long\" < files/lines"

# ---- patterns -----------------------------------------------------------------------------------------------------------
tab=$(printf '\t')
while IFS=$tab read -r answer pattern line; do
    line=${line#?}
    printf -- "${line%?}\n" > files/line
    case $answer in
        match) { printf '<standard input>:'; cat files/line; } > results/wanted.out; wanted=0 ;;
        none) : > results/wanted.out; wanted=1 ;;
        *) continue ;;
    esac
    : > results/wanted.err
    cgrep -- "$pattern" < files/line > results/out 2> results/err
    came=$?
    verdict "cgrep -- '$pattern', over the line '${line%?}'"
done < "$root/tests/shell/patterns.tsv"
while IFS=$tab read -r words at pattern; do
    case $words in '#'*) continue ;; esac
    : > results/wanted.out
    printf 'cgrep: pattern at %d: %s\n' "$at" "$words" > results/wanted.err
    wanted=2
    cgrep -- "$pattern" > results/out 2> results/err < /dev/null
    came=$?
    verdict "cgrep -- '$pattern'"
done < "$root/tests/shell/errors.tsv"

# ---- characters -------------------------------------------------------------------------------------------------------
# The reference is grep -P if it supports UTF-8. The machine code (JIT) of PCRE2 10.42 for \D misses characters past ASCII.
utf8=$(locale -a 2>/dev/null | grep -ix 'c\.utf-\{0,1\}8' | head -n 1)
# finds BYTES PATTERN: whether grep finds the pattern in the bytes
finds() { printf -- "$1\n" | LC_ALL=$utf8 grep -aqP "(*NO_JIT)$2" 2>/dev/null; }
[ -n "$utf8" ] && finds '\303\251' '^\D$' && ! finds '\377' '^.$' || utf8=
if [ -n "$utf8" ]; then
    # All lines of one to four bytes, each a letter or the first or last byte of a range of well-formed sequences.
    LC_ALL=C awk 'BEGIN {
        n = split("97 127 128 143 144 159 160 169 191 193 194 195 223 224 225 236 237 238 239 240 241 243 244 245 255", byte)
        for (i in byte) byte[i] = sprintf("%c", byte[i] + 0)
        for (i = 1; i <= n; i++) {
            print byte[i]
            for (j = 1; j <= n; j++) {
                print byte[i] byte[j]
                for (k = 1; k <= n; k++) {
                    print byte[i] byte[j] byte[k]
                    for (l = 1; l <= n; l++) print byte[i] byte[j] byte[k] byte[l]
                }
            }
        }
    }' > files/forms
    for pattern in . '^.$' '^..$' '^.{3}$' '[^a]' '^[^é]$' '^[à-ü]' '\D\W$' '[^[:ascii:]]a' '^[\x{7ff}-\x{800}]' \
        '[\x{d7ff}-\x{e000}]' '[\x{ffff}-\x{10000}]' '[\x{80}-\x{7ff}]a' '[\x{800}-\x{ffff}]$' '^[\x{10000}-\x{10ffff}]$' \
        '^[^\x{3ffff}-\x{40000}]*$'; do
        same "cgrep -h '$pattern' files/forms" "LC_ALL=$utf8 grep -aP '(*NO_JIT)$pattern' files/forms"
    done
else
    skipped 'characters as grep takes them: there is no C.UTF-8, or grep -P does not take characters there'
fi

# ---- arguments ------------------------------------------------------------------------------------------------------
printf 'one\ntwo\none\n' > files/p
printf 'say -x\na-b\n' > files/dashes
try 0 'files/p:1:one\nfiles/p:3:one\n' '' "cgrep -n one files/p"
try 0 'files/p:1:one\nfiles/p:3:one\n' '' "cgrep --n one files/p"
try 0 'files/p:one\nfiles/p:one\n' '' "cgrep -n -n=false one files/p"
try 0 'files/p:one\nfiles/p:one\n' '' "cgrep -n=0 one files/p"
try 0 'files/dashes:say -x\n' '' "cgrep -- -x files/dashes"
try 0 'files/dashes:say -x\nfiles/dashes:a-b\n' '' "cgrep - files/dashes"
try 0 'files/dashes:say -x\n' '' "cgrep x -- files/dashes 2>/dev/null"
try 2 '' 'cgrep: bad truth value in -n=yes\n' "cgrep -n=yes x"
try 2 '' 'cgrep: unknown option -cn\n' "cgrep -cn x"
try 2 '' 'cgrep: unknown option ---n\n' "cgrep ---n x"
try 2 '' 'cgrep: unknown option -f\n' "cgrep -f x"
try 2 '' 'cgrep: no pattern\n' "cgrep -n"
# An option after the pattern is a file.
try 0 'files/p:two\n' 'cgrep: -n: no such file\n' "cgrep two -n files/p"

# ---- styles: each option alone, and each pair -------------------------------------------------------------------------
lines='files/p:one\nfiles/p:one\n'
bare='one\none\n'
count='files/p: 2\n'
numbers='files/p:1:one\nfiles/p:3:one\n'
try 0 "$lines" '' "cgrep one files/p"
try 0 "$count" '' "cgrep -c one files/p"
try 0 "$bare" '' "cgrep -h one files/p"
try 0 "$lines" '' "cgrep -i ONE files/p"
try 0 'files/p\n' '' "cgrep -l one files/p"
try 0 "$count" '' "cgrep -c -h one files/p"
try 0 "$count" '' "cgrep -c -i ONE files/p"
try 0 'files/p\n' '' "cgrep -c -l one files/p"
try 0 "$count" '' "cgrep -c -n one files/p"
try 0 "$bare" '' "cgrep -h -i ONE files/p"
try 0 'files/p\n' '' "cgrep -h -l one files/p"
try 0 '1:one\n3:one\n' '' "cgrep -h -n one files/p"
try 0 'files/p\n' '' "cgrep -i -l ONE files/p"
try 0 "$numbers" '' "cgrep -i -n ONE files/p"
try 0 'files/p\n' '' "cgrep -l -n one files/p"
try 1 '' '' "cgrep ONE files/p"
try 1 '' '' "cgrep -c six files/p"
try 1 '' '' "cgrep -l six files/p"
try 0 '<standard input>\n' '' "cgrep -l one < files/p"
try 0 '<standard input>: 2\n' '' "cat files/p | cgrep -c one"

# ---- files ------------------------------------------------------------------------------------------------------------
: > files/empty
printf 'last one' > files/unended
printf 'a\0one\nb\n' > files/nul
printf '\377one\351\n' > files/latin
try 1 '' 'cgrep: files/none: no such file\n' "cgrep one files/none"
try 0 "$lines" 'cgrep: files/none: no such file\n' "cgrep one files/none files/p"
try 1 '' 'cgrep: files/p/x: no such file\n' "cgrep one files/p/x"
try 1 '' 'cgrep: : no such file\n' "cgrep one ''"
try 1 '' 'cgrep: files: cannot be read\n' "cgrep one files"
try 1 '' '' "cgrep '' files/empty"
try 0 'files/unended:last one\n' '' "cgrep one files/unended"
try 0 'files/nul:a\0one\n' '' "cgrep one files/nul"
try 0 'files/latin:\377one\351\n' '' "cgrep 'o.e' files/latin"
try 0 'files/latin:\377one\351\n' '' "cgrep '^\\Cone\\C\$' files/latin"
try 1 '' '' "cgrep '^.one|one.\$' files/latin"
try 0 "$lines$lines" '' "cgrep one files/p files/p"
try 0 "files/unended:last one\n$lines" '' "cgrep one files/unended files/p"
if shuts; then
    try 1 '' 'cgrep: files/locked: permission denied\n' "powerless \"\$program\" cgrep one files/locked"
else
    skipped 'a file that may not be read: root may read all files, and setpriv does not take that away'
fi
if [ -p /dev/fd/0 ] || [ -e /dev/stdin ]; then
    try 0 '/dev/stdin:one\n/dev/stdin:one\n' '' "cat files/p | cgrep one /dev/stdin"
fi

# ---- a file that is the output ------------------------------------------------------------------------------------------
own='cgrep: files/own: is the output\n'
cp files/p files/own
ln files/own files/hard
ln -s own files/soft
try 1 '' "$own" "cgrep one files/own >> files/own"
try 1 '' "$own" "cgrep -n -h one files/own >> files/own"
try 1 '' 'cgrep: files/hard: is the output\ncgrep: files/soft: is the output\n' "cgrep one files/hard files/soft >> files/own"
same "cat files/own" "cat files/p"
try 0 '' "$own" "cgrep one files/own files/p >> files/own"
same "cat files/own" "cat files/p && printf '$lines'"
# With -l or -c a file that is the output is searched. If no file is the output, nothing is reported.
cp files/p files/own
try 0 '' '' "cgrep -l one files/own >> files/own && cgrep -c one files/own >> files/own"
same "cat files/own" "cat files/p && printf 'files/own\nfiles/own: 2\n'"
cp files/p files/own
try 0 '' '' "cgrep one files/own > files/other"
same "cat files/other" "cgrep one files/own"
same "cgrep one files/own | cat" "cgrep one files/own"
try 0 '' '' "cgrep one files/own > /dev/null"
[ ! -e /dev/stdin ] || try 0 '' 'cgrep: /dev/stdin: is the output\n' "cgrep one files/p /dev/stdin < files/own >> files/own"

# ---- size -------------------------------------------------------------------------------------------------------------
{ head -c 5000000 /dev/zero | tr '\0' a; printf 'b\nlast\n'; } > files/long
same "cgrep 'b\$' files/long" "LC_ALL=C grep -H 'b\$' files/long"
same "cgrep -n last files/long" "LC_ALL=C grep -Hn last files/long"
mkdir files/many
awk 'BEGIN { for (i = 10000; i < 20000; i++) { f = "files/many/" i; printf "line\nnumber %d\n", i > f; close(f) } }'
same "cgrep '7\$' files/many/*" "LC_ALL=C grep -H '7\$' files/many/*"
same "cgrep -l '^number 1234' files/many/*" "LC_ALL=C grep -l '^number 1234' files/many/*"

# 2^30 bytes are searched, here 2^20 lines. If the input has one byte more, all these lines are printed, and no count.
kilo=$(printf '%01023d' 0)
try 0 '<standard input>: 1048576\n' '' "yes \$kilo | head -c 1073741824 | cgrep -c 0"
try 0 '' 'cgrep: <standard input>: input too long\n' "yes \$kilo | head -c 1073741825 | cgrep -c 0"
try 0 '1048576\n' 'cgrep: <standard input>: input too long\n' "yes \$kilo | head -c 1073741825 | cgrep -n -h 0 | tail -n 1 | cut -d : -f 1"

# ---- outputs ----------------------------------------------------------------------------------------------------------
if [ -w /dev/full ]; then
    try 2 '' 'cgrep: output failed\n' "cgrep one files/p > /dev/full"
    try 2 '' 'cgrep: output failed\n' "cgrep '' files/many/* > /dev/full"
else
    skipped 'a full output: there is no /dev/full'
fi
# A closed output fails, in each style.
for style in '' -c -h -i -l -n; do
    try 2 '' 'cgrep: output failed\n' "cgrep $style one files/p >&-"
    try 2 '' 'cgrep: output failed\n' "cat files/p | cgrep $style one >&-"
    [ ! -w /dev/full ] || try 2 '' 'cgrep: output failed\n' "cgrep $style one files/p > /dev/full"
done
# If standard error fails, nothing more can be reported.
try 2 '' '' "cgrep 'a**' 2>&-"
try 2 '' '' "cgrep one files/none 2>&-"
# If the output is closed early, the program reports it and ends at once.
# closed TOOL: the last run of the tool reported it
closed() { [ "$(cat results/status)" -eq 2 ] && [ "$(cat results/said)" = "$1: output failed" ]; }
try 0 'files/many/10000:line\n' '' "{ timeout 20 \"\$program\" cgrep line files/many/* 2> results/said; echo \$? > results/status; } | head -n 1"
holds "closed cgrep"
holds "seq 1 3000000 | timeout 20 \"\$program\" cgrep '' 2>/dev/null | head -n 1 | grep -qx '<standard input>:1'"

# ---- the same lines as grep, over the sources of this repository --------------------------------------------------------
# With -s all names go to one command, so that its status is that of xargs.
tree=$root/crates
find "$tree" -type d -name out -prune -o -type f \( -name '*.rt' -o -name '*.antt' \) -print | sort > results/names
for pattern in 'requires' '^use .*specs' 'fn [a-z_]*\(' '(length|take) [a-z]' '^$'; do
    same "xargs -s 1000000 \"\$program\" cgrep -n '$pattern' < results/names" "LC_ALL=C xargs -s 1000000 grep -EHn '$pattern' < results/names"
    same "xargs -s 1000000 \"\$program\" cgrep '$pattern' < results/names" "LC_ALL=C xargs -s 1000000 grep -EH '$pattern' < results/names"
    same "xargs -s 1000000 \"\$program\" cgrep -h '$pattern' < results/names" "LC_ALL=C xargs -s 1000000 grep -Eh '$pattern' < results/names"
    same "xargs -s 1000000 \"\$program\" cgrep -l '$pattern' < results/names" "LC_ALL=C xargs -s 1000000 grep -El '$pattern' < results/names"
    same "xargs -s 1000000 \"\$program\" cgrep -c '$pattern' < results/names" "LC_ALL=C xargs -s 1000000 grep -EHc '$pattern' < results/names | grep -v ':0\$' | sed 's/:\([0-9]*\)\$/: \1/'"
done

. "$root/tests/shell/indexing.sh"
. "$root/tests/shell/storage.sh"
. "$root/tests/shell/searching.sh"

printf '%d passed, %d failed\n' "$passed" "$failed"
[ "$failed" -eq 0 ]
