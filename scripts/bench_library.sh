#!/bin/sh
# Measures the library as a matcher beside RE2 and Rust's regex: the lines of a file in which each pattern matches.
# usage: scripts/bench_library.sh FILE [PATTERNS]
#        scripts/bench_library.sh -q INDEX FOLDER COMMAND..
# PATTERNS has a pattern on each line. LIBRARY is the folder of the archive (out/lib), and ROUNDS the number of interleaved
# rounds (5): the least processor time counts. A peer that is not installed is left out: libre2-dev and
# librust-regex-dev of Debian. Each line of the table has the pattern, the number of lines, and for each matcher ms, with
# `*` where the number is another one.
# With -q: 1,000 queries of words of the files in FOLDER, over an index of it, through examples/server.c, and by running each
# COMMAND (as csearch, or 'codesearch csearch') with -n for each: user and system time in s, and the number of lines.

here=$(cd "$(dirname -- "$0")/.." && pwd)
library=${LIBRARY:-$here/out/lib}
fresh=$(mktemp -d) || exit 2
trap 'rm -rf "$fresh"' EXIT

# queries INDEX FOLDER COMMAND..: six words of ten, and a call, an alternative, a class and two words on one line
queries() {
    index=$1 folder=$2
    shift 2
    cc -O2 -I"$here/include" -o "$fresh/server" "$here/examples/server.c" "$library/libcodesearch.a" || exit 2
    find "$folder" -type f | LC_ALL=C sort | awk 'NR % 50 == 0' | xargs -d '\n' cat | LC_ALL=C grep -ao '[A-Za-z_]\{5,20\}' \
        | LC_ALL=C sort -u > "$fresh/words"
    awk -v step=$(($(wc -l < "$fresh/words") / 1000)) '
        NR % step { before = $0; next }
        { kind = n++ % 10 }
        n > 1000 { exit }
        kind < 6 { print }
        kind == 6 { print $0 " ?\\(" }
        kind == 7 { print $0 "|" before }
        kind == 8 { print "[a-z]+_" $0 }
        kind == 9 { print substr($0, 1, 4) ".*" before }' "$fresh/words" > "$fresh/queries"
    export CSEARCHINDEX="$index"
    for command in server "$@"; do
        [ "$command" = server ] && run="$fresh/server $index" || run="xargs -d '\n' -n 1 $command -n"
        (eval "$run" < "$fresh/queries" > "$fresh/lines" 2> /dev/null; times > "$fresh/times")
        printf '%s\t%s\t%s\n' "$command" "$(tail -1 "$fresh/times")" "$(grep -vc '^[0-9]* lines$' "$fresh/lines")"
    done
}

if [ "$1" = -q ]; then
    shift
    queries "$@"
    exit
fi
file=$(readlink -f -- "$1") && [ -f "$file" ] || { echo 'bench_library: no file' >&2; exit 2; }
patterns=${2:-$here/scripts/bench_library/patterns}
source=$here/scripts/bench_library

cc -O2 -I"$here/include" -o "$fresh/codesearch" "$source/codesearch.c" "$library/libcodesearch.a" || exit 2
c++ -O2 -std=c++17 -o "$fresh/re2" "$source/re2.cc" -lre2 2> /dev/null || echo 'bench_library: no RE2' >&2
mkdir -p "$fresh/rust/src" "$fresh/rust/.cargo"
cp "$source/regex.rs" "$fresh/rust/src/main.rs"
printf '[package]\nname = "with_regex"\nversion = "0.0.0"\nedition = "2021"\n[dependencies]\nregex = "1"\n' > "$fresh/rust/Cargo.toml"
printf '[source.crates-io]\nreplace-with = "debian"\n[source.debian]\ndirectory = "/usr/share/cargo/registry"\n' \
    > "$fresh/rust/.cargo/config.toml"
(cd "$fresh/rust" && cargo build -q --release --offline 2> /dev/null && cp target/release/with_regex "$fresh/regex") \
    || echo 'bench_library: no regex' >&2

for round in $(seq "${ROUNDS:-5}"); do
    number=0
    while IFS= read -r pattern; do
        number=$((number + 1))
        for matcher in codesearch re2 regex; do
            [ -x "$fresh/$matcher" ] || continue
            printf '%s\t%s\t%s\t%s\n' "$number" "$pattern" "$matcher" "$("$fresh/$matcher" "$file" "$pattern" || echo '- -')"
        done
    done < "$patterns"
done | awk -F '\t' '
    { split($4, said, " "); key = $1 SUBSEP $3; text[$1] = $2; lines[key] = said[1]; if ($1 > last) last = $1
      if (said[2] != "-" && (!(key in least) || said[2] + 0 < least[key])) least[key] = said[2] + 0 }
    END { split("codesearch re2 regex", order, " ")
      for (n = 1; n <= last; n++) {
        row = text[n] "\t" lines[n, "codesearch"]
        for (m = 1; m <= 3; m++) {
          key = n SUBSEP order[m]
          row = row "\t" ((key in least) ? least[key] (lines[key] == lines[n, "codesearch"] ? "" : "*") : "-")
          if (key in least && least[n, "codesearch"] > 0) { logs[m] += log(least[key] / least[n, "codesearch"]); some[m]++ }
        }
        print row
      }
      for (m = 2; m <= 3; m++) if (some[m]) printf "geometric mean of %s beside codesearch: %.2f\n", order[m], exp(logs[m] / some[m])
    }'
