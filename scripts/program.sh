#!/bin/sh
# Proves the crates of the program, the lowest first, and builds the program. `make program` runs it.
# usage: scripts/program.sh [CRATE]    CRATE is codesearch, the program, or codesearch_c, the library
# Standard error says which crate is being proved, how many there are, and how long it has taken so far.

cd "$(dirname -- "$0")/.." || exit 2
target=${1:-codesearch}
start=$(date +%s)
command -v rt > /dev/null || {
    echo 'codesearch: the program is built only after its proof, and here is no Rattle toolchain (rt)' >&2
    commit=$(git log -1 --format=%h -- proved/SUMS 2> /dev/null)
    [ -z "$commit" ] || printf 'codesearch: proved/ has the program of %s: git checkout %s gives its sources\n' \
        "$(head -n 1 proved/SUMS)" "$commit" >&2
    exit 2
}

# The crates of the target, each after those that it uses.
order=$(awk -f scripts/crates.awk -v target="$target" crates.txt)
total=$(echo "$order" | wc -l)
number=0

# A process in the background does not hear Ctrl-C, so it is ended here, and the proof with it.
running=
stop() {
    trap - INT TERM HUP
    [ -z "$running" ] || kill "$running" 2> /dev/null
    wait
    exit "$1"
}
trap 'stop 130' INT
trap 'stop 143' TERM HUP

# step CRATE WORD..: runs rt with these words in the folder of the crate, and names the crate if it takes more than a moment
step() {
    crate=$1
    shift
    mkdir -p "crates/$crate/out"
    log=crates/$crate/out/build.log
    # (the line is what the built program searches)
    (cd "crates/$crate" && echo > out/line && exec rt "$@" < out/line) > "$log" 2>&1 &
    running=$!
    for _ in 1 2 3 4 5 6 7 8 9 10; do
        sleep 0.2
        kill -0 $running 2> /dev/null || break
    done
    if kill -0 $running 2> /dev/null; then
        printf 'codesearch: proving %s, %d of %d, %s so far\n' "$crate" "$number" "$total" "$(passed)" >&2
    fi
    wait $running || { cat "$log" >&2; exit 1; }
    running=
}

# the time since the start
passed() {
    seconds=$(($(date +%s) - start))
    printf '%d:%02d' $((seconds / 60)) $((seconds % 60))
}

# In a first build the libraries are proved in parallel. Where `rt check` has kept work, they are proved one after another over it.
is_first=1
for crate in $order; do [ "$crate" = "$target" ] || [ ! -d "crates/$crate/out/incremental" ] || is_first=; done
[ -z "$is_first" ] || scripts/program.py "$target" || exit 1

for crate in $order; do
    number=$((number + 1))
    # The toolchain builds a program when it runs it; this search has a match.
    case $crate in
        codesearch) step "$crate" run -- cgrep '^$' ;;
        *) step "$crate" lib ;;
    esac
done
[ "$target" != codesearch ] || printf 'codesearch: proved and built in %s: crates/codesearch/out/codesearch\n' "$(passed)" >&2
