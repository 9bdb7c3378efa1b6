#!/bin/sh
# Tries the edge of cs(1): what stops a search or its learning, states and repositories of others, settings of git, files that are
# not what they say.
# usage: tests/shell/edge.sh PROGRAM

. "$(dirname -- "$0")/library.sh"

needs git python3
HOME=$fresh/home
LC_ALL=C
GIT_CONFIG_NOSYSTEM=1
export HOME LC_ALL GIT_CONFIG_NOSYSTEM
unset XDG_CACHE_HOME XDG_CONFIG_HOME GIT_CONFIG_GLOBAL GIT_DIR GIT_WORK_TREE
mkdir -p "$HOME/bin" "$HOME/.config/git"
for name in cs codesearch; do ln -s "$program" "$HOME/bin/$name"; done
PATH=$HOME/bin:$PATH
cache=$HOME/.cache/codesearch

# files FOLDER NUMBER: a folder of so many files, of more than 1 MB if they are 600
files() { mkdir -p "$1" && (cd "$1" && seq "$2" | while read -r i; do seq 400 | sed "s/\$/ line $i/" > "f$i"; done); }

# terminal COMMAND: standard error of a command of the shell, which is a terminal
terminal() { python3 -B -c 'import os, pty, subprocess, sys
up, down = pty.openpty()
child = subprocess.Popen(["sh", "-c", sys.argv[1]], stdin=sys.stdin, stdout=subprocess.DEVNULL, stderr=down)
os.close(down)
try:
    while part := os.read(up, 4096): sys.stdout.buffer.write(part)
except OSError: pass
child.wait()' "$1"; }

# ---- what is said -------------------------------------------------------------------------------------------------------------
for tool in cs cindex csearch cgrep; do holds "codesearch --help | grep -q 'codesearch $tool '"; done
gives 2 'codesearch help'
gives 2 'cs --help=x'
mkdir "$HOME/one" && cd "$HOME/one" && git init -q . && echo marker > a || exit 2
holds "[ \"\$(terminal 'echo x | cs marker')\" = \"\$(printf 'cs: standard input is not searched; use: cs PATTERN -\\r')\" ]"
silent 'echo x | cs marker 2>&1 > /dev/null'
holds "[ -z \"\$(terminal 'echo x | cs marker a')\" ] && [ -z \"\$(terminal 'cs marker')\" ]"

# ---- a search that is stopped -----------------------------------------------------------------------------------------------------
files "$HOME/many" 3000 && cd "$HOME/many" && git init -q . || exit 2
state=$HOME/many/.git/codesearch/state
sleep 3.2
gives 0 'cs --update'
holds "[ \$(stat -c %a '$state') = 600 ] && cp -p '$state' '$fresh/state'"
# most of what the state knows is gone, so a search that ends makes it anew; one that is stopped does not
mkdir "$HOME/away" && mv f[1-9]??? f[7-9]?? "$HOME/away" || exit 2
holds "cs line | head -n 1 | grep -q line && cmp '$state' '$fresh/state'"
gives 0 'cs -q line && cmp "$state" "$fresh/state"'
holds "! (ulimit -n 4; cs nowhere 2>&1) | grep -v '^cs: ' && cmp '$state' '$fresh/state'"
gives 1 'cs --no-update nowhere'
gives 1 'cmp "$state" "$fresh/state" && cs nowhere'
holds "[ \$(stat -c %s '$state') -lt 1000 ]"
# the reader of the output has gone: as if the rest had been printed
closed() { python3 -B -c 'import os, subprocess, sys
up, down = os.pipe()
if sys.argv[1] == "closed": os.close(up)
else: os.set_blocking(down, False)
child = subprocess.run(["sh", "-c", sys.argv[2]], stdout=down)
sys.exit(child.returncode)' "$@"; }
gives 0 'closed closed "exec cs line"'
gives 0 'closed closed "exec cs --files"'
silent 'closed closed "exec cs line"'
gives 1 'closed closed "exec cs nowhere"'
gives 2 'closed closed "exec cs line missing f1"'
gives 2 'closed full "exec cs line"'
holds "[ \"\$(closed full 'exec cs line' 2>&1)\" = 'cs: output failed' ]"
[ -w /dev/full ] && holds "[ \"\$(cs line 2>&1 > /dev/full)\" = 'cs: output failed' ]"

# ---- two runs at once ---------------------------------------------------------------------------------------------------------------
mv "$HOME"/away/* . && rmdir "$HOME/away" && sleep 3.2
gives 0 'cs --update && [ ! -e "$cache"/*/ ] && for i in 1 2 3 4 5 6 7 8 9; do seq 30000 > f$i; done; sleep 3.2; cp -p "$state" "$fresh/state"'
if command -v flock > /dev/null; then
    printf 'csearch index 1\n' > "$state~"
    gives 1 'flock "$state~" cs nowhere'
    gives 2 'flock "$state~" cs --update'
    holds "[ \"\$(flock '$state~' cs --update 2>&1)\" = 'cs: another run stores what is known of the project' ]"
    holds "cmp '$state' '$fresh/state' && [ ! -e '$cache'/*/ ] && rm '$state~'"
fi
gives 0 'cs --update && ! cmp -s "$state" "$fresh/state" && [ ! -e "$cache"/*/ ]'

# ---- a state that others can write ---------------------------------------------------------------------------------------------------
# The state says of f1, by its stamp, that it has no such word; a state that is believed hides it.
seq 30000 | sed 's/^7$/hidden/' > f1
holds "cp -p '$state' '$fresh/forged' && [ \"\$(cs -l hidden)\" = f1 ]"
chmod 666 "$state"
gives 0 'cs --update && [ $(stat -c %a "$state") = 600 ]'
chmod 777 .git/codesearch
gives 0 'cs --update && [ $(stat -c %a "$cache"/*/state) = 600 ]'
chmod 700 .git/codesearch
chmod 644 "$state" && echo more >> f2 && sleep 3.2
gives 0 'cs --update && [ $(stat -c %a "$state") = 600 ]'
# an update that stores nothing
mkdir "$HOME/bare" && cd "$HOME/bare" && echo marker > a || exit 2
gives 2 'unset HOME; cs --update'
holds "[ \"\$(unset HOME; cs --update 2>&1)\" = 'cs: what is known of the project cannot be stored' ]"

# ---- files that are not what they say -----------------------------------------------------------------------------------------------
# Settings: a folder of /proc/sys whose files do not change by themselves, as kernel/random/uuid does.
if [ -d /proc/sys/vm ]; then
    cd /proc/sys/vm && sleep 0.1
    cs -c . > /dev/null 2>&1
    sleep 3.2
    cs --update > /dev/null 2>&1
    holds "[ \"\$(cs -l 10 2> /dev/null)\" = \"\$(cs --no-state -l 10 2> /dev/null)\" ]"
fi
cd "$HOME/one" && seq 200000 > long && echo marker >> long && sleep 3.2
if command -v strace > /dev/null && strace -qq -o /dev/null true 2> /dev/null; then
    # a read that ends too soon
    strace -qq -o /dev/null -P "$PWD/long" -e inject=read:retval=0:when=1 cs --update
    holds "[ \"\$(cs -c marker)\" = \"\$(printf 'a:1\nlong:1')\" ]"
    rm -rf .git/codesearch
else
    skipped 'reads that end too soon: strace does not work here'
fi
# a folder beside the project, whose name begins with that of the project
files "$HOME/one2" 3 && echo marker > "$HOME/one2/b" && sleep 3.2
gives 0 'cs --update . ../one2 && [ -e .git/codesearch/state ]'
holds "[ \"\$(cs -l marker . ../one2)\" = \"\$(printf './a\n./long\n../one2/b')\" ]"

# ---- git's settings, rules and repositories --------------------------------------------------------------------------------------------
rm -f long && echo marker > a.log || exit 2
listed() { cs -l marker | tr '\n' ' '; }
as_git() { git ls-files -o --exclude-standard | tr '\n' ' '; }
# agrees WHAT: cs lists what git lists
agrees() { holds "[ \"\$(listed)\" = \"\$(as_git)\" ] # $1"; }
agrees 'no settings'
mkdir "$HOME/dots" && echo '*.log' > "$HOME/dots/ignore" && ln -s ../../dots/ignore "$HOME/.config/git/ignore"
agrees 'the rules of the user by a link'
rm "$HOME/.config/git/ignore" && printf '[core]\nexcludesFile = ~/dots/ignore\n' > "$HOME/dots/config" && ln -s dots/config "$HOME/.gitconfig"
agrees 'the settings by a link'
rm "$HOME/.gitconfig" && printf '[include]\npath = dots/config\n' > "$HOME/.gitconfig"
agrees 'settings that are included'
printf '[includeIf "gitdir:%s/"]\npath = dots/config\n' "$HOME/one" > "$HOME/.gitconfig"
agrees 'settings for this folder'
printf '\357\273\277[core]\nexcludesFile = ~/dots/\\\nignore\n' > "$HOME/.gitconfig"
agrees 'a mark and a continued value'
GIT_CONFIG_GLOBAL=$HOME/dots/config
export GIT_CONFIG_GLOBAL
agrees 'settings that the environment names'
unset GIT_CONFIG_GLOBAL
echo '*.log' > "$fresh/exclude" && ln -sf "$fresh/exclude" .git/info/exclude && rm "$HOME/.gitconfig"
agrees 'the rules of a repository by a link'
rm .git/info/exclude && mkfifo .git/info/exclude
holds "[ \"\$(timeout 10 cs -l marker | tr '\n' ' ')\" = 'a a.log ' ]"
rm .git/info/exclude
gives 2 'mkdir "$HOME/.gitconfig"; printf "[core\n" > "$fresh/bad"; GIT_CONFIG_GLOBAL=$fresh/bad cs marker'
rm -rf "$HOME/.gitconfig"
# a folder above that is no repository
mkdir -p "$HOME/odd/.git" "$HOME/odd/in" && echo '*' > "$HOME/odd/.gitignore" && echo marker > "$HOME/odd/in/a" && cd "$HOME/odd/in" || exit 2
holds "[ \"\$(cs -l marker)\" = a ]"
touch ../.git/HEAD && mkdir ../.git/objects
holds "[ \"\$(cs -l marker)\" = a ]"
mkdir ../.git/refs
gives 1 'cs -l marker'
if [ "$(id -u)" = 0 ]; then
    chown 12345 ../.git
    holds "[ \"\$(cs -l marker)\" = a ]"
    holds "terminal 'cs marker' | grep -q 'belongs to another user, so its rules do not count'"
    chown 12345 .
    gives 1 'cs -l marker'
fi
# globs that can match nothing
cd "$HOME/one" || exit 2
for glob in / '!' '[' 'a[' '!/'; do gives 2 "cs -g '$glob' marker"; done
# rules that take much memory
mkdir "$HOME/rules" && cd "$HOME/rules" && git init -q . || exit 2
folder=.
for name in 1 2 3 4 5 6 7 8; do
    yes 'a' | head -c 1000000 > "$folder/.gitignore"
    folder=$folder/$name
    mkdir "$folder"
done
echo marker > "$folder/b"
holds "(ulimit -v 260000; cs -l marker) | grep -q 1/2/3/4/5/6/7/8/b"

summary
