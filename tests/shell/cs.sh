#!/bin/sh
# Compares cs(1) with git grep and rg: on this repository, on a tree with odd names whose files change, in work trees and submodules;
# and tries the state that it keeps.
# usage: tests/shell/cs.sh PROGRAM

. "$(dirname -- "$0")/library.sh"

needs git
HOME=$fresh/home
GIT_CONFIG_GLOBAL=/dev/null
LC_ALL=C
export HOME GIT_CONFIG_GLOBAL LC_ALL
unset XDG_CACHE_HOME GIT_DIR GIT_WORK_TREE
mkdir -p "$HOME/bin"
ln -s "$program" "$HOME/bin/cs"
PATH=$HOME/bin:$PATH
git() { command git -c core.quotePath=false -c user.name=a -c user.email=a@b -c protocol.file.allow=always "$@"; }

# parted: names, numbers and lines, each by itself, in one order (git has a NUL after numbers too)
parted() { tr '\0:' '\n\n' | sort; }

# alike COMMAND..: this command prints what the last run of cs did
alike() {
    "$@" 2>&1 | parted > "$fresh/wanted"
    holds "[ -s '$fresh/wanted' ] && diff -a '$fresh/wanted' '$fresh/came' | head -n 20; cmp '$fresh/wanted' '$fresh/came'"
}

as_git() {
    cs -0 "$@" 2>&1 | parted > "$fresh/came"
    alike git grep -z --untracked -I --no-color -P "$@"
}

as_rg() {
    command -v rg > /dev/null || return 0
    cs "$@" 2>&1 | parted > "$fresh/came"
    alike rg --no-config --hidden --glob '!.git' --no-heading --no-require-git -j 1 "$@"
}

command -v rg > /dev/null || skipped 'rg is not here: only git grep is compared'

# ---- this repository ----------------------------------------------------------------------------------------------------
if git clone -q "$root" "$fresh/here" 2> /dev/null; then
    cd "$fresh/here" || exit 2
    for pattern in marker 'fn [a-z_]+_of\(' '^#' 'x{3,}$' '(one|two) (files|lines)'; do
        for option in -n -c -l -i -v -o; do as_git $option "$pattern"; done
        as_rg -n -C 2 "$pattern"
        as_rg --vimgrep "$pattern"
        as_rg --column -i "$pattern"
    done
    as_git -n -w index
    as_git -n -F 'a[0]'
    as_git -L -i the
    as_rg -n -S index
    as_rg -n -S Index
    as_rg -n -m 2 index
    as_rg -c -m 3 index
    as_rg -n -A 3 -B 1 'prefix of'
    as_rg -0 -l index
    as_rg -0 -n 'prefix of'
    as_rg -n index docs
    as_rg -n index docs/USE.md crates
    as_rg index docs/USE.md
    cd docs
    as_git -n trigram
    as_rg -n trigram ../man
else
    skipped 'this repository: it is not one of git'
fi

# ---- odd names, files that come, change and go --------------------------------------------------------------------------------
mkdir "$HOME/real" && ln -s real "$HOME/link"
cd "$HOME/link" && git init -q 'a project' && cd 'a project' || exit 2
mkdir -p src .hidden 'two  spaces' deep/er build
printf 'a marker\nnext\n' > src/one.c
printf 'marker two\n' > 'two  spaces/a b.c'
printf 'line\nmarker: 3: x\nlast\n' > 'deep/er/colon: 1:2.c'
printf 'first\nmarker after a newline\n' > "deep/new
line.c"
printf 'marker\n' > ./-dash.c
printf 'marker\n' > .hidden/dot.c
printf 'marker\n' > .dotfile
printf 'marker\n' > '#hash#'
printf 'marker\n' > 'backup.c~'
printf 'marker \\ backslash\n' > 'back\slash & | [x].c'
printf 'marker caf\351\n' > latin.txt
printf 'marker\0binary\n' > binary
head -c 5000 /dev/zero | tr '\0' x > long.txt
printf ' marker\n' >> long.txt
printf 'marker ignored\n' > build/out.c
printf 'build/\n' > .gitignore
ln -s src/one.c a-link.c
: > empty
printf 'no newline at the end: marker' > last.c
git add src deep
for option in -n -c -l -nw -vc -o; do as_git $option marker; done
as_git -n '^marker'
as_rg -n -C 1 two
holds "cs -n marker long.txt | grep -q '^1:xxxx'"
cd deep && as_git -n marker && cd ..

# files that were changed, added, removed, and are ignored now
printf 'another marker\n' >> src/one.c
printf 'marker new\n' > src/new.c
rm ./-dash.c
rm -r deep
printf 'marker\n' > deep
git add -u
as_git -n marker
printf 'build/\nsrc/new.c\n' > .gitignore
as_git -n marker
rm src/one.c && mkdir src/one.c && printf 'marker\n' > src/one.c/inner.c && printf 'src/one.c/\n' >> .gitignore
as_git -n marker
printf 'marker late\n' > late.c
gives 0 "cs 'marker late'"
holds "[ \"\$(cs -n 'marker late' late.c)\" = '1:marker late' ]"
mv "$HOME/link/a project" "$HOME/moved" && cd "$HOME/moved" && as_git -n marker

# a repository whose folder begins with a dot, and one with a colon
git init -q "$HOME/.dotted" && cd "$HOME/.dotted" && printf 'marker\n' > a.c && as_git -n marker
git init -q "$HOME/a:b" && cd "$HOME/a:b" && mkdir sub || exit 2
printf 'marker\nother\n' > a.c
printf 'marker\n' > sub/b.c
as_git -n marker
as_git -n -e other -e marker
as_git -c -i -F -e OTHER -e '(' -e MARKER
as_git -n -w -e othe -e marker

# ---- a work tree, a submodule, a folder without a repository -------------------------------------------------------------------
cd "$HOME/moved" && git add -A . && git commit -q -m one
git worktree add -q "$HOME/tree" 2> /dev/null
cd "$HOME/tree" && printf 'marker of the tree\n' > tree.c && as_git -n marker
cd "$HOME/moved" && holds "! cs -l 'of the tree'"
git init -q "$HOME/outer" && cd "$HOME/outer" && git submodule -q add "$HOME/moved" 'sub module' && git commit -q -m sub
printf 'marker of the outer one\n' > outer.c
printf 'marker untracked\n' > 'sub module/untracked.c'
as_rg -n 'marker (of|untracked)'
cd 'sub module' && as_git -n marker
mkdir -p "$HOME/plain/.dot" "$HOME/plain/sub" && cd "$HOME/plain" || exit 2
printf 'marker\n' > sub/a.c
printf 'marker\n' > .dot/b.c
holds "[ \"\$(cs marker)\" = sub/a.c:marker ]"
holds "cd sub && [ \"\$(cs marker)\" = a.c:marker ]"

# ---- the state ------------------------------------------------------------------------------------------------------------------
# Of more than 500 files and 1 MB a search leaves a state. In the repository, it replaces what an earlier version left.
repository "$HOME/large" "$HOME/few" "$HOME/twice" "$HOME/named"
mkdir "$HOME/large/.git/codesearch" && cd "$HOME/large" || exit 2
awk 'BEGIN { for (i = 0; i < 600; i++) { name = sprintf("f%03d", i); for (j = 0; j < 500; j++) print i, "line", j > name; close(name) } }'
echo old > .git/codesearch/state
cp -r . "$HOME/loose" && rm -r "$HOME/loose/.git"
cp -r "$HOME/loose" "$HOME/file" && echo 'gitdir: ../named/.git' > "$HOME/file/.git"
cd "$HOME/few" && cp ../large/f59? .
# the clock before the search is read to the second
sleep 3.2
state=$HOME/large/.git/codesearch/state
cache=$HOME/.cache/codesearch
rm -rf "$cache"
cd "$HOME/large" || exit 2
is_state() { [ "$(tail -c 17 "$1")" = 'codesearch state3' ]; }
# unsealed FILE: what a state says, without its sums and its moment
unsealed() {
    room=$(($(stat -c %s "$1") - 41))
    head -c $((room - 8 * ((room + 65543) / 65544))) "$1" && tail -c 41 "$1" | head -c 8
}
says_alike() { [ "$(unsealed "$1" | sha1sum)" = "$(unsealed "$2" | sha1sum)" ]; }
gives 1 'cs --no-update nowhere && cs --no-state nowhere'
holds "[ \"\$(cat '$state')\" = old ]"
gives 1 'cs nowhere'
holds "is_state '$state' && cp '$state' '$fresh/state'"
# with -q a search ends at the first match, and says nothing of the files behind it
gives 0 "cs -q 'line 7\$'"
holds "cmp '$state' '$fresh/state'"
echo '599 line 0 and a marker' >> f599
holds "[ \"\$(cs marker)\" = 'f599:599 line 0 and a marker' ] && [ \"\$(cs -c '^599 line 0')\" = f599:2 ]"
holds "cmp '$state' '$fresh/state'"
# a subfolder of the project has the same state, and an update reads what is damaged
mkdir sub && cp f000 sub
: > "$state"
holds "[ \"\$(cd sub && cs -l '^0 line 7$')\" = f000 ] && [ ! -s '$state' ]"
gives 0 'cd sub && cs --update'
holds "is_state '$state' && [ ! -e '$state~' ]"
gives 2 'cs --update missing'
silent 'cs --update; [ ! -e "$cache"/*/ ] || echo "$cache"/*/'
# an update is a merge, which says what a state says that is made anew; where all is known, nothing is written
cp "$state" "$fresh/state"
for name in f5*; do seq 3000 >> "$name"; done
sleep 3.2
gives 1 'cs nowhere'
holds "is_state '$state' && ! cmp -s '$state' '$fresh/state' && cp '$state' '$fresh/state' && rm '$state'"
gives 1 'cs nowhere'
holds "says_alike '$state' '$fresh/state' && cp -p '$state' '$fresh/state'"
gives 0 'cs --update'
holds "[ ! '$state' -nt '$fresh/state' ]"
echo 'a last marker' >> f599
sleep 3.2
gives 0 'cs --update'
holds "[ '$state' -nt '$fresh/state' ] && [ \"\$(cs -c marker)\" = f599:2 ]"
# a state that is learned at once says what one says that is made in two updates
cd "$HOME/twice" || exit 2
state=$PWD/.git/codesearch/state
seq 13000000 > a
sleep 3.2
gives 0 'cs --update'
seq 3000 > b && printf 'b\0inary' > c && echo 'a last marker' > d
sleep 3.2
gives 0 'cs --update'
holds "is_state '$state' && mv '$state' '$fresh/state'"
gives 0 'cs --update'
holds "says_alike '$state' '$fresh/state' && [ \"\$(cs marker)\" = 'd:a last marker' ] && [ \"\$(ls -A .git/codesearch)\" = state ]"
cd "$HOME/few" && gives 0 'cs "line 7$"' && holds '[ ! -e .git/codesearch ]'
# what a file .git names is not written to, nor is a plain folder
cd "$HOME/file" && gives 1 'cs nowhere' && holds '[ "$(echo $(ls ../named/.git))" = "HEAD objects refs" ]'
cd "$HOME/loose" && gives 0 'cs --update' && holds '[ -z "$(ls | grep -v "^f[0-9]*$")" ]'
holds "[ \$(stat -c %a '$cache') = 700 ] && [ \$(ls '$cache'/*/state | wc -l) = 2 ] && is_state '$cache'/\$(printf %s \"\$PWD\" | sha1sum | cut -c 1-40)/state"
gives 0 'XDG_CACHE_HOME=$HOME/other cs --update'
holds 'is_state "$HOME"/other/codesearch/*/state'
gives 0 'cs --help | grep -q -- --no-state'
holds "[ \"\$(cs --version)\" = \"cs \$(cat '$root/VERSION')\" ]"

summary
