#!/bin/sh
# Compares `cs` with rg, git and grep over small trees: forms, choices of files, odd names and errors.
# usage: tests/shell/project.sh PROGRAM

. "$(dirname -- "$0")/library.sh"

LC_ALL=C
export LC_ALL
ln -s "$program" "$fresh/cs"
PATH=$fresh:$PATH
mkdir -p "$fresh/tree/sub/deep" "$fresh/tree/.hidden" "$fresh/tree/out"
cd "$fresh/tree" || exit 2
repository .
printf 'out/\n*.log\n!kept.log\n' > .gitignore
printf 'x\nab ab\ny\nz\nab ab\n' > f
printf 'ab\n' > sub/g
printf 'one ab\n\nlast ab' > sub/deep/h.c
printf 'ab\0ab\n' > binary
printf 'abc\nAB\n' > .hidden/i
printf 'ab\n' > out/ignored
printf 'ab\n' > a.log
printf 'ab\n' > kept.log
printf 'no match\n' > 'name with space'
printf 'ab\n' > "$(printf 'new\nline')"
printf 'ab(\n' > 'a*b[c]'

# prints STATUS OUTPUT ERRORS COMMAND: the output and the errors have \n and \0 for a newline and a NUL
prints() {
    printf -- "$2" > "$fresh/wanted"
    printf -- "$3" > "$fresh/wanted.err"
    eval "$4" > "$fresh/came" 2> "$fresh/came.err" < /dev/null
    came=$?
    printf 'status %s\n' "$1" >> "$fresh/wanted.err"
    printf 'status %s\n' "$came" >> "$fresh/came.err"
    same wanted came
    same wanted.err came.err
}

# as_rg ARGUMENTS..: the bytes and the status of rg, whose files are sorted
as_rg() {
    command -v rg > /dev/null || return 0
    rg --no-config --no-messages --hidden -g '!.git' --sort path --no-heading "$@" > "$fresh/wanted" 2> /dev/null < /dev/null
    wanted=$?
    cs "$@" > "$fresh/came" 2> /dev/null < /dev/null
    came=$?
    holds "[ $came = $wanted ] || echo 'status $came, not $wanted: $*'; [ $came = $wanted ]"
    same wanted came
}

command -v rg > /dev/null || skipped 'rg is not here'

# ---- forms --------------------------------------------------------------------------------------------------------------
as_rg ab f
as_rg ab f sub
as_rg -n ab f
as_rg -n -B1 ab f sub
as_rg -n -C1 ab sub
as_rg -A1 -B2 ab sub
as_rg -c ab f sub
as_rg -l ab f sub
as_rg -o ab f
as_rg -o -n -m1 ab f sub
as_rg -v ab f
as_rg -c -v ab f sub
as_rg -w abc f sub
as_rg -x ab f sub
as_rg -i AB f
as_rg -S AB f
as_rg -F 'ab(' 'a*b[c]'
as_rg -e x -e y f
as_rg -H ab f
as_rg -N ab f
as_rg --column ab f sub
as_rg --vimgrep ab f sub
as_rg -m1 ab f sub
as_rg -l -0 ab sub
as_rg zzz
as_rg '^$' sub
as_rg -t c ab sub
as_rg -T c ab sub
as_rg --max-depth 1 ab sub
as_rg -- ab f
as_rg ab ./sub
as_rg ab sub/
prints 0 'x\nab ab\ny\nz\nab ab\n' '' "cs '' f"
prints 0 'f:2:1:ab ab\nf:2:4:ab ab\n' '' "cs --vimgrep -m1 ab f"
prints 0 'f\n2:ab ab\n3-y\n--\n5:ab ab\n\nsub/g\n1:ab\n' '' "cs --heading -n -A1 ab f sub/g"
prints 0 'sub/deep/h.c:1:one ab\nsub/deep/h.c:3:last ab\nsub/g:1:ab\n' '' "cs -n ab sub"
prints 0 'sub/deep/h.c\0sub/g\0' '' "cs -l -0 ab sub"
prints 1 'f\n' '' "cs -L zzz f"
prints 1 '' '' "cs zzz"

# ---- each line of a pattern is a pattern, as in grep ----------------------------------------------------------------------
nl='
'
as_grep() {
    grep "$@" > "$fresh/wanted"
    wanted=$?
    cs "$@" > "$fresh/came" 2> /dev/null < /dev/null
    came=$?
    holds "[ $came = $wanted ] || echo 'status $came, not $wanted: $*'; [ $came = $wanted ]"
    same wanted came
}
for pattern in "x${nl}z" "x$nl" "$nl" "${nl}x" "x$nl${nl}z" "zzz${nl}yyy" "AB${nl}Y" "ab ab${nl}b" 'x'; do
    for option in -n -F -x -i -v -o; do as_grep $option -e "$pattern" f; done
    as_grep -F -e zzz -e "$pattern" f
    as_grep "$pattern" f
done
prints 0 'x\n' '' "cs -S -e 'x${nl}AB' f"
prints 2 '' 'cs: bad pattern: a parenthesis closes no group, at byte 4\n' "cs 'ab${nl}c)'"
prints 2 '' 'cs: bad pattern: a backslash at the end, at byte 3\n' "cs -e ab -e 'ab${nl}\\${nl}c'"

# ---- binary files: one that is met is left out, one that is named matches or not ----------------------------------------
mkdir bin
printf 'x\nab\n\0z\nab\n' > bin/b
printf 'x\0\n' > bin/n
as_rg ab bin
as_rg -l ab bin
as_rg -c ab bin/b
as_rg -c ab bin/b f
as_rg -c -v ab bin/b
as_rg -l ab bin/b f
as_rg -q ab bin/b
as_rg -q zzz bin/b
as_rg -a ab bin/b f
as_rg ab bin/n
as_rg -m0 ab bin/b
prints 0 'bin/b: binary file matches\n' '' "cs ab bin/b"
prints 0 'bin/b: binary file matches\nf:2:ab ab\nf:5:ab ab\n' '' "cs -n ab bin/b bin/n f"
prints 0 'bin/b: binary file matches\n' '' "cs -v --vimgrep ab bin bin/b"
prints 0 'ab\nab\nbin/b: binary file matches\n' '' "cs -h -o -m1 ab f bin/b"
prints 0 'f-1-x\nf:2:ab ab\n--\nbin/b: binary file matches\n--\nsub/g:1:ab\n' '' "cs -n -B1 -m1 ab f bin/b sub/g"
prints 0 'sub/g\nab\n\nbin/b: binary file matches\n\nsub/g\nab\n' '' "cs --heading ab sub/g bin/b sub/g"
prints 0 'bin/n\n' '' "cs -L ab bin bin/b bin/n"
prints 0 '1\n' '' "printf 'ab\\0' | cs ab - | grep -c -x -e '-: binary file matches'"
rm -r bin

# ---- the standard input: it is no path, and is read once -----------------------------------------------------------------
prints 0 'ab 1\n' '' "printf 'ab 1\nx\n' | cs ab -"
prints 0 '-:ab 1\n-:ab 2\n' '' "printf 'ab 1\nab 2\n' | cs ab - -"
prints 0 '-:1\n' '' "printf 'ab 1\nab 2\n' | cs -c -m1 ab - -"
prints 0 '-\n' '' "printf 'ab\n' | cs -l ab - -"
prints 1 '-\n-\n' '' "printf 'ab\n' | cs -L zzz - -"
prints 0 '-:ab 1\nsub/g:ab\n' '' "printf 'ab 1\n' | cs ab - sub/g -"
prints 0 'sub/g:ab\n-:ab 1\n' '' "printf 'ab 1\n' | cs ab sub/g -"
prints 0 'ab 2\n' '' "printf 'ab 1\nab 2\n' > lines; (read -r first; cs ab -) < lines"
prints 0 'sub/g\n-\nab\n' '' "printf 'ab\n' | { cs --files sub/g -; cat; }"
prints 2 '' 'cs: -: cannot be read\n' "cs ab - < /"
prints 2 '' 'cs: -: cannot be read\n' "cs ab - <&-"
prints 2 'sub/g:ab\n' 'cs: -: cannot be read\n' "cs ab - sub/g <&-"
prints 0 '' '' "printf 'ab\n' | cs -q ab - missing"
prints 1 '' '' "printf 'x\n' | cs -q ab -"
prints 0 'ab\n' '' "printf 'ab\n' > ./-; printf 'x\n' | cs ab ./-"
rm ./- lines
if command -v python3 > /dev/null; then
    prints 0 'ab\n' '' "python3 -c 'import socket, subprocess
near, far = socket.socketpair()
far.send(b\"ab\\n\"); far.close()
subprocess.run([\"cs\", \"ab\", \"-\"], stdin=near)'"
fi
if [ "$(id -u)" -eq 0 ] && command -v setpriv > /dev/null; then
    printf 'ab\n' > private
    chmod 600 private
    prints 0 'ab\n' '' "HOME=/ XDG_CONFIG_HOME= setpriv --reuid 65534 --regid 65534 --clear-groups '$program' cs ab - < private"
    rm private
fi

# ---- which files --------------------------------------------------------------------------------------------------------
prints 0 '.gitignore\n.hidden/i\na*b[c]\nbinary\nf\nkept.log\nname with space\nnew\nline\nsub/deep/h.c\nsub/g\n' '' "cs --files"
prints 0 'sub/deep/h.c\0sub/g\0' '' "cs --files -0 sub"
prints 0 'sub/deep/h.c\n' '' "cs --files -g '*.c'"
prints 0 'a.log\nout/ignored\n' '' "cs --files -u -g '*.log' -g 'ignored' -g '!kept*'"
prints 0 'out/ignored:ab\n' '' "cs ab out"
prints 0 'ab\n' '' "cs ab out/ignored"
if command -v git > /dev/null; then
    mkdir "$fresh/git"
    cp -r . "$fresh/git/tree"
    (cd "$fresh/git/tree" && rm -r .git && git init -q . && git ls-files -z --cached --others --exclude-standard) | tr '\0' '\n' | sort > "$fresh/wanted"
    (cd "$fresh/git/tree" && cs --files) | sort > "$fresh/came"
    same wanted came
fi
cs -l ab > found
prints 0 'f\nkept.log\n' '' "grep -x -e f -e kept.log found"
prints 1 '' '' "grep -x found found"
rm found

# ---- links, pipes, what cannot be read ----------------------------------------------------------------------------------
ln -s sub link
ln -s f to_f
mkfifo pipe
prints 0 'link/deep/h.c:one ab\nlink/deep/h.c:last ab\nlink/g:ab\n' '' "cs ab link"
prints 0 'ab ab\nab ab\n' '' "cs ab to_f"
prints 0 'pipe:ab\nsub/g:ab\n' '' "{ echo ab > pipe & cs ab pipe sub/g; }"
prints 2 'sub/g:ab\n' 'cs: missing: no such file\n' "cs ab missing sub/g"
rm link to_f pipe
# after a link, `..` leads to the folder of what the link leads to
mkdir -p sub/x "$fresh/far/near"
printf 'ab\n' > sub/x/k
printf 'ab\n' > "$fresh/far/k"
ln -s sub/deep link
ln -s "$fresh/far/near" away
as_rg ab link/../x
as_rg ab link/../x/k away/../k
as_rg -n ab sub/deep/../..//sub/x
prints 0 'away/../k\n' '' "cs --files away/.."
prints 0 'link/..//x/k:ab\n' '' "cs ab link/..//x/"
prints 2 'sub/../f\n' 'cs: missing/../f: no such file\n' "cs --files missing/../f sub/../f"
rm -r sub/x link away
# Root may read protected files, unless it gives up that capability.
powerless() { "$@"; }
if [ "$(id -u)" -eq 0 ]; then
    powers=-dac_override,-dac_read_search
    powerless() { setpriv --bounding-set $powers --inh-caps $powers "$@"; }
fi
mkdir closed
printf 'ab\n' > closed/j
printf 'ab\n' > unread
chmod 0 closed unread
if powerless true 2> /dev/null && ! powerless cat unread > /dev/null 2>&1; then
    prints 2 'sub/g:ab\n' 'cs: closed: permission denied\ncs: unread: permission denied\n' "powerless cs ab closed sub/g unread"
    prints 2 'sub/g\n' 'cs: closed: permission denied\ncs: unread: permission denied\n' "powerless cs -l -g closed -g 'unread' -g sub/g ab"
    prints 0 '' 'cs: closed: permission denied\n' "powerless cs -q ab closed sub/g"
    chmod 0 .gitignore
    prints 2 'sub/g\n' 'cs: .gitignore: permission denied\ncs: closed: permission denied\n' "powerless cs -l -g sub/g ab"
    chmod 644 .gitignore
    # in a folder that may not be listed the rule files are looked up by name
    mkdir -p above/in
    printf 'j\n' > above/.gitignore
    printf 'ab\n' | tee above/in/j > above/in/k
    chmod 111 above
    prints 0 'above/in/k\n' '' "powerless cs --files above/in"
    chmod 700 above
    rm -r above
else
    skipped 'what may not be read: root may read all files, and setpriv does not take that away'
fi
chmod 700 closed
rm -rf closed unread

# ---- bad input ----------------------------------------------------------------------------------------------------------
mkdir -p "$fresh/bad/.git/info" "$fresh/bad/sub"
cd "$fresh/bad" || exit 2
repository .
printf 'ab\n' > a
printf 'ab\n' > sub/b
# a name that is not UTF-8: the rest is searched
printf 'ab\n' > "$(printf 'sub/\377')"
prints 2 'a:ab\nsub/b:ab\n' 'cs: sub: the name of an entry is not UTF-8\n' "cs ab"
rm sub/*[!b]
# a rule file that is not UTF-8, one that is long, and 10,000 rules
printf 'x\0y\n\377\nsub\n' > .gitignore
prints 0 '.gitignore\na\n' '' "cs --files"
head -c 1048577 /dev/zero | tr '\0' a > .gitignore
prints 2 '.gitignore\na\nsub/b\n' 'cs: .gitignore: the rule file is too long\n' "cs --files"
head -c 1048576 /dev/zero | tr '\0' a > .gitignore
prints 0 '.gitignore\na\nsub/b\n' '' "cs --files"
seq 10000 > .gitignore
echo '!9999' >> .gitignore
echo ab > 77
echo ab > 9999
prints 0 '.gitignore\n9999\na\nsub/b\n' '' "cs --files"
rm 77 9999
# hostile globs end
{ printf '%01000d' 0 | sed 's/0/*a/g'; echo b; } > .gitignore
touch "$(printf '%0200d' 0 | tr 0 a)"
prints 0 '' '' "cs --files | grep -v -e '^aaa' -e '^\.gitignore$' -e '^a$' -e '^sub/b$'; :"
rm aaa* .gitignore
# a loop of links, and a link out of the project: nothing is followed that nobody named
ln -s . loop
ln -s / sub/out
ln -s nowhere gone
ln -s .gitignore rules
prints 0 'a\nsub/b\n' '' "cs --files"
prints 0 'loop/a:ab\nloop/sub/b:ab\n' '' "cs ab loop"
prints 2 '' 'cs: gone: no such file\n' "cs ab gone"
rm loop sub/out gone rules
# a rule file that is a link is not read, as by git
printf 'a\n' > rules
ln -s rules .gitignore
prints 0 'a\nrules\nsub/b\n' '' "cs --files"
rm .gitignore rules
# what git does not search of a repository inside, this does, by its own rules
repository sub/inner
printf 'x\n' > .gitignore
printf 'y\n' > sub/inner/.gitignore
echo ab > sub/inner/x
echo ab > sub/inner/y
prints 0 '.gitignore\na\nsub/b\nsub/inner/.gitignore\nsub/inner/x\n' '' "cs --files"
prints 0 '.gitignore\nx\n' '' "(cd sub/inner && cs --files)"
printf 'x\n' > .ignore
prints 0 'sub/inner/.gitignore\nsub/inner/x\nsub/inner/y\n' '' "cs --files -g '/sub/inner/*'"
rm -r sub/inner .gitignore .ignore
echo a > .git/info/exclude
prints 0 'sub/b\n' '' "cs --files"
prints 0 'a\nsub/b\n' '' "cs --files -u"
# `info/exclude` may be a link; one to a pipe, to nothing or to itself has no rules
mv .git/info/exclude .git/rules
ln -s ../rules .git/info/exclude
prints 0 'sub/b\n' '' "cs --files"
for leads in pipe nothing exclude; do
    rm .git/info/exclude
    ln -s $leads .git/info/exclude
    [ $leads != pipe ] || mkfifo .git/info/pipe
    prints 0 'a\nsub/b\n' '' "timeout 9 cs --files"
done
rm .git/info/exclude
# git takes a folder for a repository whose `.git` has HEAD, objects and refs; a worktree shares the last two
printf 'b\n' > .gitignore
for part in HEAD objects refs; do
    mv .git/$part .git/gone
    prints 0 'a\nsub/b\n' '' "cs --files"
    ln -s gone .git/$part
    prints 0 '.gitignore\na\n' '' "cs --files"
    rm .git/$part
    mv .git/gone .git/$part
done
mkdir -p .git/worktrees/w "$fresh/worktree"
echo 'ref: refs/heads/w' > .git/worktrees/w/HEAD
echo "gitdir: $fresh/bad/.git/worktrees/w" > "$fresh/worktree/.git"
printf 'a\n' > "$fresh/worktree/.gitignore"
echo ab > "$fresh/worktree/a"
prints 0 'a\n' '' "(cd '$fresh/worktree' && cs --files)"
echo ../.. > .git/worktrees/w/commondir
prints 0 '.gitignore\n' '' "(cd '$fresh/worktree' && cs --files)"
rm .gitignore
prints 0 'ab\n' '' "cs ab a"
# outside of a repository hidden names are left out
mkdir "$fresh/plain"
cd "$fresh/plain" || exit 2
echo ab > .hidden
echo ab > seen
echo seen > .gitignore
prints 0 'seen\n' '' "cs --files"
prints 0 '.gitignore\n.hidden\nseen\n' '' "cs --files --hidden"
echo seen > .ignore
prints 0 '' '' "cs --files"
cd "$fresh/tree" || exit 2

# ---- outputs ------------------------------------------------------------------------------------------------------------
prints 2 '' 'cs: output failed\n' "cs ab > /dev/full"
seq 100000 > many
prints 0 '1\n' '' "cs '' many | head -n 1"
rm many

# ---- errors -------------------------------------------------------------------------------------------------------------
prints 2 '' 'cs: no pattern (cs --help)\n' "cs"
prints 2 '' 'cs: unknown option: --nonsense (cs --help)\n' "cs --nonsense ab"
prints 2 '' 'cs: an option of rg that cs does not have: --json\n' "cs --json ab"
prints 2 '' 'cs: an option that takes no value: --count=3\n' "cs --count=3 ab"
prints 2 '' 'cs: the last option needs a value\n' "cs ab -m"
prints 2 '' 'cs: not a number: x\n' "cs -m x ab"
prints 2 '' 'cs: not always, never or auto: red\n' "cs --color red ab"
prints 2 '' 'cs: no such type (cs --type-list): zz\n' "cs -t zz ab"
prints 2 '' 'cs: bad pattern: a parenthesis closes no group\n  a)\n   ^\n' "cs 'a)'"
prints 2 '' 'cs: bad pattern: a parenthesis closes no group\n  é)\n   ^\n' "cs -e ab -e 'é)' -e '(b'"
prints 2 '' 'cs: not a glob that matches anything: *.{c,h\n' "cs -g '*.{c,h' ab"
prints 2 '' 'cs: not a glob that matches anything: /\n' "cs -g / ab"
prints 2 '' 'cs: not a glob that matches anything: !\n' "cs -g '!' ab"
prints 2 '' 'cs: not a glob that matches anything: [\n' "cs -g '[' ab"
prints 2 '' 'cs: word 2 is not text\n' "cs ab \"\$(printf '\\377')\""
prints 0 '' '' "cs -q ab"
prints 1 '' '' "cs -q zzz"
prints 0 '' '' "cs -q -c -e ab -e zzz f"
prints 0 '' '' "cs --update"
prints 0 '' '' "cs --update sub f"
prints 2 '' 'cs: nowhere: no such file\n' "cs --update nowhere"
prints 0 '2\n' '' "cs --no-state -c ab f"
prints 0 '2\n' '' "cs --no-update -c ab f"
prints 0 'cs 0.9.1\n' '' "cs --version"
holds "cs --help | grep -q '^usage: cs'"
holds "cs --type-list | grep -q '^c: '"
holds "'$program' cs ab sub/g"
# a closed output ends the search
holds "cs '' . | head -n 1 | grep -q ."

summary
