#!/bin/sh
# Measures the tools against those that are installed: Go's codesearch, GNU grep and ripgrep. docs/PERFORMANCE.md
# says what is measured, and how.
# usage: scripts/bench.sh PROGRAM TREE        or: make bench TREE=..
# These variables may be set: ROUNDS (5), SUBTREE (the first folder of the tree), PATTERNS (a file with a pattern on
# each line), BYTES (the size of the file that cgrep searches, 100000000), and PICTURE (a file for a picture of the
# tables). The file that cgrep searches and two indexes are written to TMPDIR.

program=$(readlink -f -- "$1") && [ -x "$program" ] || { echo 'bench: no program' >&2; exit 2; }
tree=$([ -n "$2" ] && readlink -f -- "$2") && [ -d "$tree" ] || { echo 'bench: give a folder, as TREE=/usr/include' >&2; exit 2; }
clock=$(command -v time) && "$clock" -q -f %U true 2>/dev/null || { echo 'bench: GNU time is not installed' >&2; exit 2; }
fresh=$(mktemp -d) || exit 2
trap 'rm -rf "$fresh"' EXIT
rounds=${ROUNDS:-5}
export program tree fresh LC_ALL=C

[ -n "$PATTERNS" ] && cp -- "$PATTERNS" "$fresh/patterns" || cat > "$fresh/patterns" <<'END'
return
#include <[a-z]+\.h>
^[a-z]+ [a-z_]+\(
[A-Z]+_ERROR
(open|close|read)_file
[Tt]emporar(y|ily)
no such words at all
END
export subtree="${SUBTREE:-$(find "$tree" -mindepth 1 -maxdepth 1 -type d ! -name '[.#~]*' ! -name '*~' | sort | head -n 1)}"

# Go's tools, unless the installed commands of these names are ours.
go_tool() { command -v "$1" > /dev/null && "$1" -help 2>&1 | grep -q '^usage:' && command -v "$1"; }
go_cindex=$(go_tool cindex)
go_csearch=$(go_tool csearch)
go_cgrep=$(go_tool cgrep)
rg=$(command -v rg)
export go_cindex go_csearch go_cgrep

# ---- what is run ------------------------------------------------------------------------------------------------------
# A row of the plan is a job, a tool, its command, and a command that prints its answer. The first tool of each job is
# ours.
plan() { printf '%s\t%s\t%s\t%s\n' "$@" >> "$fresh/plan"; }

# each COMMAND: runs it for each pattern
each() { printf 'while IFS= read -r pattern <&3; do %s; done 3< "$fresh/patterns"' "$1"; }

indexed='CSEARCHINDEX=$fresh/%s "$program" csearch -brute -l ""'
ours=$(printf "$indexed" ours)
gos=$(printf "$indexed" go)
found='cat "$fresh/out"'
plan 'cindex -reset' codesearch 'CSEARCHINDEX=$fresh/ours "$program" cindex -reset "$tree"' "$ours"
[ -z "$go_cindex" ] || plan 'cindex -reset' Go 'CSEARCHINDEX=$fresh/go "$go_cindex" -reset "$tree"' "$gos"
if [ -n "$subtree" ]; then
    plan 'cindex SUBTREE' codesearch 'CSEARCHINDEX=$fresh/ours "$program" cindex "$subtree"' "$ours"
    [ -z "$go_cindex" ] || plan 'cindex SUBTREE' Go 'CSEARCHINDEX=$fresh/go "$go_cindex" "$subtree"' "$gos"
fi
# All search the same files: Go's csearch by our index, the others by its list of names.
plan csearch codesearch "$(each 'CSEARCHINDEX=$fresh/ours "$program" csearch -n -- "$pattern"')" "$found"
[ -z "$go_csearch" ] || plan csearch Go "$(each 'CSEARCHINDEX=$fresh/ours "$go_csearch" -n -- "$pattern"')" "$found"
plan csearch grep "$(each 'xargs -0 grep -aHnE -e "$pattern" < "$fresh/names"')" "$found"
[ -z "$rg" ] || plan csearch ripgrep "$(each 'xargs -0 rg --no-config -j 1 -a -E none --no-unicode --no-heading -Hn -e "$pattern" < "$fresh/names"')" "$found"
plan cgrep codesearch "$(each '"$program" cgrep -n -- "$pattern" "$fresh/all"')" "$found"
[ -z "$go_cgrep" ] || plan cgrep Go "$(each '"$go_cgrep" -n -- "$pattern" "$fresh/all"')" "$found"
plan cgrep grep "$(each 'grep -aHnE -e "$pattern" "$fresh/all"')" "$found"
[ -z "$rg" ] || plan cgrep ripgrep "$(each 'rg --no-config -j 1 -a -E none --no-unicode --no-heading -Hn -e "$pattern" "$fresh/all"')" "$found"

# ---- runs -------------------------------------------------------------------------------------------------------------
# run COMMAND: writes its times and its memory to `taken`. Its output goes to a file, since grep stops at the first
# matching line if its output is /dev/null.
run() { "$clock" -q -f '%U %S %M' -o "$fresh/taken" sh -c "$1" > "$fresh/out" 2>/dev/null < /dev/null; }

tab=$(printf '\t')
round=0
while [ $round -le "$rounds" ]; do
    while IFS=$tab read -r job tool command answer <&4; do
        run "$command"
        if [ $round -gt 0 ]; then
            awk -v job="$job" -v tool="$tool" 'END { printf "%s\t%s\t%s\t%s\n", job, tool, $1 + $2, $3 * 1024 / 1000000 }' "$fresh/taken" >> "$fresh/runs"
            continue
        fi
        # The first round is not counted: it reads the files into the page cache, and records what each tool answers.
        sh -c "$answer" 2>/dev/null | sort > "$fresh/answer"
        [ "$tool" != codesearch ] || mv "$fresh/answer" "$fresh/wanted"
        same=yes
        [ "$tool" = codesearch ] || cmp -s "$fresh/answer" "$fresh/wanted" ||
            same="no, $(comm -3 "$fresh/answer" "$fresh/wanted" | wc -l) differ"
        printf '%s\t%s\t%s\t%s\n' "$job" "$tool" "$(wc -l < "$fresh/wanted")" "$same" >> "$fresh/answers"
        if [ ! -e "$fresh/names" ]; then
            tr '\n' '\0' < "$fresh/wanted" > "$fresh/names"
            xargs -0 cat < "$fresh/names" 2>/dev/null | head -c "${BYTES:-100000000}" > "$fresh/all"
        fi
    done 4< "$fresh/plan"
    round=$((round + 1))
done

# ---- the tables -------------------------------------------------------------------------------------------------------
printf '%s, %s, %s processors\n' "$(date +%F)" \
    "$(sed -n 's/^model name[^:]*: //p' /proc/cpuinfo 2>/dev/null | head -n 1)" "$(getconf _NPROCESSORS_ONLN)"
printf '%s: %d files indexed, %d bytes; one file of %d bytes; %d patterns; medians of %d rounds\n' "$tree" \
    "$(tr -cd '\0' < "$fresh/names" | wc -c)" "$(xargs -0 cat < "$fresh/names" | wc -c)" "$(wc -c < "$fresh/all")" \
    "$(wc -l < "$fresh/patterns")" "$rounds"
[ -z "$subtree" ] || printf 'SUBTREE is %s\n' "$subtree"
[ -n "$go_cindex$go_csearch$go_cgrep" ] || echo "skipped: Go's codesearch: it is not installed"
[ -n "$rg" ] || echo 'skipped: ripgrep: it is not installed'
awk -F '\t' '
    function median(values,    list, count, i, j, held) {
        count = split(values, list, " ")
        for (i = 2; i <= count; i++)
            for (j = i; j > 1 && list[j - 1] + 0 > list[j] + 0; j--) { held = list[j]; list[j] = list[j - 1]; list[j - 1] = held }
        return count % 2 ? list[(count + 1) / 2] : (list[count / 2] + list[count / 2 + 1]) / 2
    }
    function ratio(value, ours) { return ours > 0 ? sprintf("%.2f", value / ours) : "-" }
    FILENAME == ARGV[1] { times[$1, $2] = times[$1, $2] " " $3; peaks[$1, $2] = peaks[$1, $2] " " $4; next }
    {
        time = median(times[$1, $2])
        peak = median(peaks[$1, $2])
        if ($2 == "codesearch") { our_time = time; our_peak = peak; $4 = $3 (index($1, "cindex") ? " names" : " lines") }
        if ($1 != job) {
            job = $1
            printf "\n### %s\n\n| tool | user + system, s | ratio | peak memory, MB | ratio | the same answer |\n|---|---|---|---|---|---|\n", job
        }
        printf "| %s | %.2f | %s | %.1f | %s | %s |\n", $2, time, ratio(time, our_time), peak, ratio(peak, our_peak), $4
    }' "$fresh/runs" "$fresh/answers" | tee "$fresh/tables"
[ -z "$PICTURE" ] || awk -f "$(dirname -- "$0")/picture.awk" "$fresh/tables" > "$PICTURE"
