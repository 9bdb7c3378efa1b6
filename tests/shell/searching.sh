# Searches of an index of a real tree. A part of end_to_end.sh, which defines `try`, `same` and `holds`.

# ---- options ----------------------------------------------------------------------------------------------------------
mkdir trees/s
printf 'one\ntwo\none\n' > trees/s/p
printf 'Two\n' > trees/s/q
printf 'three\none' > trees/s/r
cindex -reset trees/s
p=$home/trees/s/p
q=$home/trees/s/q
r=$home/trees/s/r
try 0 "$p:one\n$p:one\n$r:one\n" '' "csearch one"
try 0 "$p: 2\n$r: 1\n" '' "csearch -c one"
try 0 "$p\n$r\n" '' "csearch -l one"
try 0 'one\none\none\n' '' "csearch -h one"
try 0 "$p:1:one\n$p:3:one\n$r:2:one\n" '' "csearch -n one"
try 0 '1:one\n3:one\n2:one\n' '' "csearch -n -h one"
try 0 "$p:two\n$q:Two\n" '' "csearch -i TWO"
try 0 "$r:one\n" '' "csearch -f '[rq]\$' one"
try 1 '' '' "csearch -i -f '/R\$' one"
try 0 "$r:one\n" '' "csearch -f=/r one"
try 0 "$p:two\n" '' "csearch -brute two"
try 0 "$p\n$q\n$r\n" '' "csearch -l ''"
try 1 '' '' "csearch four"
try 2 '' 'csearch: no pattern\n' "csearch"
try 2 '' 'csearch: extra word y\n' "csearch x y"
try 2 '' 'csearch: option -f needs a value\n' "csearch -f"
try 2 '' 'csearch: pattern at 2: stacked repeat\n' "csearch -f '(' 'a**'"
try 2 '' 'csearch: file pattern at 0: group not closed\n' "csearch -f '(' x"
try 2 '' 'csearch: pattern at 2: stacked repeat\n' "CSEARCHINDEX=\$home/none csearch 'a**'"
for style in '' -c -h -i -l -n -brute; do
    try 2 '' 'csearch: output failed\n' "csearch $style one >&-"
    [ ! -w /dev/full ] || try 2 '' 'csearch: output failed\n' "csearch $style one > /dev/full"
done

# ---- a file that is the output ----------------------------------------------------------------------------------------
mkdir trees/own
printf 'one\n' > trees/own/in
printf 'one\n' > trees/own/out
own=$home/trees/own
CSEARCHINDEX=$home/own cindex trees/own
try 0 '' "csearch: $own/out: is the output\n" "CSEARCHINDEX=\$home/own csearch one >> trees/own/out"
same "cat trees/own/out" "printf 'one\n$own/in:one\n'"
try 0 '' '' "CSEARCHINDEX=\$home/own csearch -l one >> trees/own/out"
try 0 '' '' "CSEARCHINDEX=\$home/own csearch -c one >> trees/own/out"
same "tail -n 4 trees/own/out" "printf '$own/in\n$own/out\n$own/in: 1\n$own/out: 2\n'"
try 0 '' '' "CSEARCHINDEX=\$home/own cindex trees/own > trees/own/out"

# ---- files that have changed since the job --------------------------------------------------------------------------------
printf 'four\n' > trees/s/p
try 0 "$r:one\n" '' "csearch one"
try 1 '' '' "csearch four"
try 0 "$p:four\n" '' "csearch -brute four"
rm trees/s/p
try 0 "$r:one\n" "csearch: $p: no such file\n" "csearch one"
mkdir trees/s/p
try 0 "$r:one\n" "csearch: $p: cannot be read\n" "csearch one"
try 0 "$q:Two\n" '' "csearch Two"

# ---- no line is lost: a search by trigrams lists the files that cgrep lists
# -------------------------------------------------
# A row of queries.txt has a pattern, a text with a match and, unless every line matches, a near miss: a text without a match
# that shares its trigrams or letters. Texts are as printf's %b reads them. Row n gives the files match-n and miss-n, and
# each pattern is searched in the files of all rows.
mkdir trees/table
row=0
while IFS=$tab read -r pattern text miss; do
    row=$((row + 1))
    printf '%b' "$text" > trees/table/match-$row
    [ -z "$miss" ] || printf '%b' "$miss" > trees/table/miss-$row
done < "$root/tests/shell/queries.txt"
try 0 '' '' "cindex -reset -logskip trees/table"
find "$home/trees/table" -type f | LC_ALL=C sort > results/names
row=0
while IFS=$tab read -r pattern text miss; do
    row=$((row + 1))
    xargs -s 1000000 "$program" cgrep -l -- "$pattern" < results/names > results/listed
    holds "grep -q '/match-$row\$' results/listed && ! grep -q '/miss-$row\$' results/listed"
    same "csearch -l -- '$pattern'" "cat results/listed"
done < "$root/tests/shell/queries.txt"

# ---- the same lines as grep, over a real tree ---------------------------------------------------------------------------
cindex -reset trees/real
find "$home/trees/real" -type f -size +0 | LC_ALL=C sort > results/names
while read -r pattern; do
    same "csearch -n '$pattern'" "LC_ALL=C xargs -s 1000000 grep -aEHn '$pattern' < results/names"
    same "csearch -brute '$pattern'" "xargs -s 1000000 \"\$program\" cgrep '$pattern' < results/names"
done <<'PATTERNS'
requires
ensures
fn [a-z_]+\(
^use .*specs
(length|take) [a-z]
TheVariants
abbrev pub [a-z]+_of
[Tt]rigram
Option<.*>
^#!\[tactic
[0-9]{3}
(from|into)_[a-z]+
x?yz|abc
match [a-z]+ \{$
\bindex\b
Err\(.*Fault
[Bb]uild(er)?s?
wo+rd
(one|two|three)s
^}$
pub (fn|struct|enum)
(ab|cd)(ef|gh)
mutants|proofs
Ok\(\(\)\)
while let Some
// .*\.$
^ghost use
String::from_str
PATTERNS
# Patterns with characters. end_to_end.sh sets `utf8` to a locale in which grep -P matches characters, or leaves it empty.
while [ -n "$utf8" ] && read -r pattern; do
    same "csearch -n '$pattern'" "LC_ALL=$utf8 xargs -s 1000000 grep -aPHn '(*NO_JIT)$pattern' < results/names"
    same "csearch -brute '$pattern'" "xargs -s 1000000 \"\$program\" cgrep '$pattern' < results/names"
done <<'PATTERNS'
a.c.e
[^ -~]+ →
^[^a-z]+[≡→] .
[α-ω] [a-z]+\.
[^[:ascii:]]{2}
(List|→) [ℕ-ℤ]$
(é|[à-ü])\w
[一-龥]
PATTERNS
same "csearch -i REQUIRES" "LC_ALL=C xargs -s 1000000 grep -aiEH REQUIRES < results/names"
same "csearch -l -f '\.rt\$' unwrap_or" "grep '\.rt\$' results/names | LC_ALL=C xargs -s 1000000 grep -aEl unwrap_or"
holds "{ timeout 20 \"\$program\" csearch . 2> results/said; echo \$? > results/status; } | head -n 1 | grep -q ."
holds "closed csearch"
