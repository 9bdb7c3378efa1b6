# Indexes of real trees. A part of end_to_end.sh, which defines `try`, `same` and `holds`.

# ---- small trees ----------------------------------------------------------------------------------------------------
mkdir trees trees/a
try 2 '' 'cindex: no index\n' "cindex"
try 2 '' 'cindex: no index\n' "cindex -list"
try 2 '' 'csearch: no index\n' "csearch x"
try 0 '' '' "cindex -reset"
holds "[ ! -e index ]"
try 0 '' '' "cindex trees/a"
try 0 "$home/trees/a\n" '' "cindex -list"
printf 'abcd\n' > trees/a/x
try 0 '' '' "cindex"
# The index of the same tree at the path /a has known bytes: offsets after the path grow by its length.
long=$((${#home} + 6))
{
    printf 'csearch index 1\n%s/trees/a\0\0%s/trees/a/x\0\0' "$home" "$home"
    printf "abc\\001\\0bcd\\001\\0cd\\n\\001\\0\\377\\377\\377\\0"
} > results/prefix
holds "head -c \$((48 + 2 * long - 3)) index | cmp -s - results/prefix"
holds "[ \$(wc -c < index) -eq \$((122 + 2 * long)) ]"
try 0 "$home/trees/a/x:abcd\n" '' "csearch bcd"
try 1 '' '' "csearch xyz"
try 0 '' '' "cd trees && cindex -reset a/../a/./; cd .."
try 0 "$home/trees/a\n" '' "cindex -list"
try 2 '' 'cindex: bad path \n' "cindex ''"
try 2 '' 'cindex: unknown option -verbose\n' "cindex -verbose trees"
try 0 "$home/trees/a\n" '' "cindex -list trees/none"
try 0 '' "cindex: $home/-list: no such file\n" "cindex trees/a -list"
try 0 "$home/-list\n$home/trees/a\n" '' "cindex -list"

# A file of 2^30 bytes is indexed, and one with a byte more is not.
if [ "$(df -Pk . | awk 'NR == 2 { print $4 }')" -gt 2000000 ]; then
    mkdir trees/long
    yes '' | head -c 1073741824 > trees/long/lines
    try 0 '' '' "cindex -reset -logskip trees/long"
    echo >> trees/long/lines
    try 0 '' "cindex: $home/trees/long/lines: not indexed: file too long\n" "cindex -reset -logskip trees/long"
    rm -r trees/long
else
    echo "indexing.sh: a file of 2^30 bytes is not tried: too little space"
fi

# ---- excluded and skipped files ---------------------------------------------------------------------------------------
mkdir trees/odd trees/odd/.git trees/odd/folder~
for name in .hidden '#lock' '~draft' 'backup~' plain .git/config 'folder~/inside' 'a b' 'new
line'; do
    printf 'words\n' > "trees/odd/$name"
done
printf 'a\0b\n' > trees/odd/nul
printf 'caf\351 cr\350me\n' > trees/odd/latin
head -c 3000 /dev/zero | tr '\0' a > trees/odd/long
: > trees/odd/empty
ln -s plain trees/odd/link
ln -s ../odd trees/odd/circle
mkfifo trees/odd/pipe
# The name of a socket has to be short.
(
    cd trees/odd || exit
    perl -MSocket -e 'socket(S, AF_UNIX, SOCK_STREAM, 0) and bind(S, sockaddr_un("socket")) or exit 1' ||
        python3 -c 'import socket; socket.socket(socket.AF_UNIX).bind("socket")'
) 2>/dev/null
try 0 '' "cindex: $home/trees/odd/latin: not indexed: bad UTF-8\ncindex: $home/trees/odd/long: not indexed: line too long\ncindex: $home/trees/odd/nul: not indexed: NUL byte\n" "cindex -reset -logskip trees/odd"
try 0 "$home/trees/odd/a b\n$home/trees/odd/new\nline\n$home/trees/odd/plain\n" '' "csearch -l words"
try 0 "$home/trees/odd/plain\n" '' "csearch -l -f '/plain\$' words"
try 0 "$home/trees/odd/a b:words\n" '' "csearch -f ' ' words"
try 0 '' '' "cindex -reset trees/odd"
try 0 '' '' "cindex -reset trees/odd/.git"
try 1 '' '' "csearch words"
try 0 '' '' "cindex -reset trees/odd/.git/config"
try 0 "$home/trees/odd/.git/config:words\n" '' "csearch words"
try 0 '' '' "cindex -reset trees/odd/circle trees/odd/link trees/odd/pipe"
try 1 '' '' "csearch ''"
if [ -S trees/odd/socket ]; then
    try 0 '' '' "cindex -reset -logskip trees/odd/socket"
    try 1 '' '' "csearch ''"
else
    skipped 'a socket: neither perl nor python3 makes one'
fi
try 0 '' "cindex: $home/trees/none: no such file\n" "cindex -reset trees/none trees/a"
try 0 "$home/trees/a\n$home/trees/none\n" '' "cindex -list"
try 0 '' "cindex: $home/trees/a/x/y: no such file\n" "cindex -reset trees/a/x/y"
mkdir trees/unnamed
if : > "trees/unnamed/$(printf 'na\377me')" 2>/dev/null; then
    printf 'words\n' > trees/unnamed/named
    try 0 '' "cindex: $home/trees/unnamed: name is not text\n" "cindex -reset trees/unnamed"
    try 0 "$home/trees/unnamed/named\n" '' "csearch -l words"
else
    skipped 'a name that is not text: the system refuses it'
fi
if shuts; then
    mkdir trees/closed trees/closed/in trees/closed/out
    printf 'words\n' | tee trees/closed/in/f trees/closed/out/f > trees/closed/shut
    try 0 '' '' "cindex -reset trees/closed"
    chmod 000 trees/closed/in trees/closed/shut
    try 0 "$home/trees/closed/out/f\n" "csearch: $home/trees/closed/in/f: permission denied\ncsearch: $home/trees/closed/shut: permission denied\n" "powerless \"\$program\" csearch -l words"
    try 0 '' "cindex: $home/trees/closed/in: permission denied\ncindex: $home/trees/closed/shut: permission denied\n" "powerless \"\$program\" cindex -reset trees/closed"
    try 0 "$home/trees/closed/out/f\n" '' "csearch -l words"
    try 0 '' "cindex: $home/trees/closed/in/f: permission denied\n" "powerless \"\$program\" cindex -reset trees/closed/in/f"
    chmod 700 trees/closed/in trees/closed/shut
else
    skipped 'a folder and a file that may not be read: root may read all of them, and setpriv does not take that away'
fi

# ---- a folder that changes during a read ------------------------------------------------------------------------------
mkdir trees/moving
(
    while [ -d trees/moving ] && [ ! -e results/stop ]; do
        mkdir trees/moving/d
        for name in 1 2 3 4 5 6 7 8 9; do
            printf 'words\n' > trees/moving/d/$name
            mkdir trees/moving/d/below$name
            rm trees/moving/d/$name
            mkdir trees/moving/d/$name
            rmdir trees/moving/d/$name
            ln -s below$name trees/moving/d/$name
        done
        rm -r trees/moving/d
    done
) &
mover=$!
time=0
while [ $time -lt 20 ]; do
    time=$((time + 1))
    holds "cindex -reset trees/moving 2> results/said"
    holds "! grep -v \"^cindex: \$home/trees/moving/d.*: \(no such file\|cannot be read\)\\\$\" results/said"
    try 0 "$home/trees/moving\n" '' "cindex -list"
done
: > results/stop
wait $mover
rm -r trees/moving

# ---- paths that are too long ------------------------------------------------------------------------------------------
# The longest path that the system accepts has 4095 bytes.
deep=$home/trees/deep
mkdir trees/deep
(
    cd trees/deep || exit
    part=$(printf '%0100d' 0)
    left=$((4096 - ${#deep}))
    while [ $left -gt 200 ]; do
        mkdir "$part" && cd "$part" || exit
        printf 'words\n' > f
        left=$((left - 101))
    done
    pwd > "$home/results/deep"
    longest=$(printf "%0$((left - 2))d" 0)
    printf 'words\n' | tee "$longest" > "1$longest"
    mkdir "2$longest"
    printf 'words\n' > "2$longest/f"
    printf '%s\n' "$longest" >> "$home/results/deep"
)
{ read -r deep; read -r longest; } < results/deep
holds "[ \$((\${#deep} + \${#longest})) -eq 4094 ]"
try 0 '' "cindex: $deep/1$longest: path too long\ncindex: $deep/2$longest: path too long\n" "cindex -reset trees/deep"
try 0 "$deep/$longest\n" '' "csearch -l -f '/0*\$' words"
same "csearch -l words | wc -l" "find trees/deep -type f | grep -vc '/[12]0'"
rm -rf trees/deep

# ---- the index file -------------------------------------------------------------------------------------------------
mkdir trees/b
awk 'BEGIN { for (i = 0; i < 2000; i++) printf "line %d of many\n", i * 7919 }' > trees/b/many
cindex -reset trees/a
cp index results/old
try 2 '' "codesearch: cannot write $home/none/index\n" "CSEARCHINDEX=\$home/none/index cindex trees/a"
try 2 '' "codesearch: cannot read $home/trees\n" "CSEARCHINDEX=\$home/trees cindex -reset trees/a"
try 2 '' "codesearch: cannot read $home/trees\n" "CSEARCHINDEX=\$home/trees csearch x"
try 2 '' "codesearch: cannot write $home/index\n" "(ulimit -f 1; trap '' XFSZ; cindex trees/b)"
holds "cmp -s index results/old && [ ! -e index~ ]"
# The file of a killed run is overwritten, though it is longer.
head -c 1000000 /dev/zero > index~
try 0 '' '' "cindex trees/b"
holds "[ ! -e index~ ]"
try 0 "$home/trees/a\n$home/trees/b\n" '' "cindex -list"
try 0 "$home/trees/b/many: 2000\n" '' "csearch -c 'line [0-9]+ of many'"
# A file at FILE~ that cindex did not create stays unchanged, and so does FILE.
cp results/old index
printf 'other\n' > results/other
cp results/other results/kept
refused="codesearch: cannot write $home/index\n"
foreign="codesearch: cannot write $home/index: remove $home/index~\n"
for command in 'ln -s index index~' 'ln index index~' 'ln -s results/other index~' 'ln results/other index~' 'ln -s results/none index~' 'mkdir index~' 'mkfifo index~'; do
    eval "$command"
    line=$refused
    [ -f index~ ] && [ ! -h index~ ] && line=$foreign
    try 2 '' "$line" "timeout 20 \"\$program\" cindex trees/b # after $command"
    holds "cmp -s index results/old && cmp -s results/other results/kept && [ ! -e results/none ]"
    rm -r index~
done
# FILE has to be a regular file.
mkfifo results/odd
try 2 '' "codesearch: cannot read $home/results/odd\n" "CSEARCHINDEX=\$home/results/odd timeout 20 \"\$program\" cindex -reset"
try 2 '' "codesearch: cannot read $home/results/odd\n" "CSEARCHINDEX=\$home/results/odd timeout 20 \"\$program\" csearch x"
holds "[ -p results/odd ] && rm results/odd"
if mknod results/odd c 1 3 2>/dev/null; then
    for command in 'cindex -reset' 'cindex trees/a' 'csearch x'; do
        try 2 '' "codesearch: cannot read $home/results/odd\n" "CSEARCHINDEX=\$home/results/odd timeout 20 \"\$program\" $command"
    done
    holds "[ -c results/odd ] && [ ! -e results/odd~ ] && rm results/odd"
else
    skipped 'a device as the index: this user may not make one'
fi
# A file that is longer than an index can be is not read.
if truncate -s 5G results/odd 2>/dev/null; then
    try 2 '' "codesearch: cannot read $home/results/odd\n" "(ulimit -v 1000000; CSEARCHINDEX=\$home/results/odd \"\$program\" cindex trees/a)"
    rm results/odd
else
    skipped 'an index of 5 GB: the system makes no such file'
fi
# The mode is that of the replaced index, or 666 without the bits of the umask; never that of an abandoned file. storage.sh
# has the modes that are not kept whole.
for mode in 600 644 444; do
    cp results/old index
    chmod $mode index
    printf 'csearch in' > index~
    chmod 4755 index~
    try 0 '' '' "cindex trees/b"
    holds "[ \$(stat -c %a index) = $mode ] && rm -f index"
done
for mask in 077 022 002; do
    try 0 '' '' "(umask $mask; rm -f index; cindex trees/a)"
    holds "[ \$(printf '%o' \$((0666 & ~0$mask))) = \$(stat -c %a index) ]"
done
if [ "$(id -u)" -eq 0 ] && chown 12345:12345 index 2>/dev/null; then
    try 0 '' '' "cindex trees/b"
    holds "[ \$(stat -c %u:%g index) = 12345:12345 ]"
    cp results/old index
    chown 0:0 index
    # Another user's file at FILE~ stays, and so does FILE.
    printf 'left\n' > index~
    chown 12345:12345 index~
    chmod 666 index~
    try 2 '' "$foreign" "cindex trees/b"
    try 2 '' "$foreign" "cindex -reset"
    holds "cmp -s index results/old && [ \"\$(cat index~)\" = left ]"
    # While another process has locked it, nobody is asked to remove it.
    if command -v flock > /dev/null; then
        try 2 '' "$refused" "flock index~ \"\$program\" cindex trees/b"
    fi
    rm index~
    # An attacker who creates files and links there again and again, in a folder like /tmp, never owns the index.
    if command -v setpriv > /dev/null; then
        chmod 711 "$home"
        mkdir -m 1777 results/sticky
        cp results/old results/sticky/index
        rm -f results/stop
        setpriv --reuid 12345 --regid 12345 --clear-groups sh -c 'cd results/sticky && while [ ! -e ../stop ]; do
            echo left > index~
            echo left > mine && mv -f mine index~
            ln -s none mine && mv -fT mine index~
            rm -f index~
        done' 2>/dev/null &
        time=0
        while [ $time -lt 40 ]; do
            time=$((time + 1))
            CSEARCHINDEX=$home/results/sticky/index "$program" cindex trees/b 2> results/said
            holds "[ \$(stat -c %u results/sticky/index) = 0 ] && [ ! -h results/sticky/index ] && [ ! -e results/sticky/none ]"
            holds "CSEARCHINDEX=\$home/results/sticky/index cindex -list > results/listed && ! grep -vx \"codesearch: cannot write \$home/results/sticky/index\(: remove .*\)*\" results/said"
        done
        : > results/stop
        wait $!
    fi
else
    skipped 'an index of another user: this user is not root'
fi
cp results/old index
chmod 644 index
if shuts; then
    mkdir results/fixed
    cp results/old results/fixed/index
    chmod 555 results/fixed
    refused="codesearch: cannot write $home/results/fixed/index\n"
    try 2 '' "$refused" "CSEARCHINDEX=\$home/results/fixed/index powerless \"\$program\" cindex trees/b"
    try 2 '' "$refused" "CSEARCHINDEX=\$home/results/fixed/index powerless \"\$program\" cindex -reset"
    holds "cmp -s results/fixed/index results/old && [ ! -e results/fixed/index~ ]"
    chmod 755 results/fixed
    chmod 000 results/fixed/index
    try 2 '' "codesearch: cannot read $home/results/fixed/index\n" "CSEARCHINDEX=\$home/results/fixed/index powerless \"\$program\" cindex -reset trees/b"
    try 2 '' "codesearch: cannot read $home/results/fixed/index\n" "CSEARCHINDEX=\$home/results/fixed/index powerless \"\$program\" csearch x"
    chmod 644 results/fixed/index
    holds "cmp -s results/fixed/index results/old && [ ! -e results/fixed/index~ ]"
else
    skipped 'an index that may not be written or read: root may do both, and setpriv does not take that away'
fi
mkdir results/home
try 0 '' '' "CSEARCHINDEX= HOME=\$home/results/home cindex trees/a"
holds "cmp -s results/home/.csearchindex results/old"
try 0 "$home/trees/a/x:abcd\n" '' "(unset CSEARCHINDEX; HOME=\$home/results/home csearch abc)"
[ -e /.csearchindex ] || try 2 '' 'csearch: no index\n' "(unset CSEARCHINDEX HOME; csearch abc)"
try 2 '' 'cgrep: no pattern\n' "CSEARCHINDEX=\$home/trees cgrep"
printf 'no index\n' > results/other
try 2 '' 'csearch: bad index: magic\n' "CSEARCHINDEX=\$home/results/other csearch x"
try 2 '' 'cindex: bad index: magic\n' "CSEARCHINDEX=\$home/results/other cindex trees/a"
holds "[ \"\$(cat results/other)\" = 'no index' ]"
head -c 100 results/old > index
try 2 '' 'cindex: bad index: trailer\n' "cindex trees/a"
try 2 '' 'cindex: bad index: trailer\n' "cindex -list"
holds "head -c 100 results/old | cmp -s - index"
try 0 '' '' "cindex -reset trees/a"
holds "cmp -s index results/old"
[ ! -w /dev/full ] || try 2 '' 'cindex: output failed\n' "cindex -list > /dev/full"
try 2 '' 'cindex: output failed\n' "cindex -list >&-"
for command in 'cindex -logskip trees/odd' 'cindex trees/none' 'cindex -reset trees/none'; do
    [ ! -w /dev/full ] || try 2 '' '' "$command 2> /dev/full"
    try 2 '' '' "$command 2>&-"
    holds "cmp -s index results/old"
done
try 2 '' 'codesearch: no current folder\n' "(mkdir gone && cd gone && rmdir ../gone && cindex trees/a)"

# ---- errors: their order, and what they point at ------------------------------------------------------------------------
# nowhere: runs the command in a folder that is removed
nowhere() { (mkdir "$home/gone" && cd "$home/gone" && rmdir "$home/gone" && "$@"); }
try 2 '' 'cindex: word 2 is not text\n' "nowhere cindex -x \"\$bad\""
try 2 '' 'codesearch: no current folder\n' "nowhere cindex -x"
try 2 '' 'codesearch: no current folder\n' "CSEARCHINDEX=\$home/trees nowhere cindex -list"
try 2 '' 'csearch: unknown option -x\n' "nowhere csearch -x"
try 0 "$home/trees/a/x:abcd\n" '' "nowhere csearch abc"
try 2 '' 'cgrep: no pattern\n' "nowhere cgrep"
# The index file is read before the other arguments.
for command in 'cindex -x' 'cindex -list=maybe' 'csearch' 'csearch one two' "csearch '(a'"; do
    try 2 '' "codesearch: cannot read $home/trees\n" "CSEARCHINDEX=\$home/trees $command"
done
for command in 'cindex -x' 'cindex -list' 'cindex trees/a' 'csearch x' 'csearch -x'; do
    try 2 '' 'codesearch: cannot read CSEARCHINDEX\n' "CSEARCHINDEX=\$bad $command"
    try 2 '' 'codesearch: cannot read CSEARCHINDEX\n' "(unset CSEARCHINDEX; HOME=\$bad $command)"
done
try 1 '' '' "CSEARCHINDEX=\$bad HOME=\$bad cgrep x"
# The argument or the path that an error points at.
far=/$(head -c 5000 /dev/zero | tr '\0' f)
try 2 '' "cindex: bad path $far\n" "cindex trees/a \$far trees/b"
try 2 '' 'cindex: bad truth value in -reset=maybe\n' "cindex -list -reset=maybe trees/a"
try 2 '' 'csearch: extra word three\n' "csearch -n one three four"
try 2 '' 'csearch: option -f needs a value\n' "csearch -n -i -f"
try 2 '' 'cgrep: unknown option -x\n' "cgrep -n -i -x one"
# An error and `-list` leave the index file alone: it is not written again, not even with the same bytes.
stat -c '%i %y %z' index > results/untouched
for command in "cindex ''" 'cindex -x' "cindex -reset ''" "cindex -reset trees/a \$far" 'cindex -reset -x' "csearch '(a'"; do
    eval "$command" 2> /dev/null
    holds "[ $? -eq 2 ] && stat -c '%i %y %z' index | cmp -s - results/untouched # after $command"
done
for command in 'cindex -list' 'cindex -list -reset' 'cindex -reset -list trees/b' "cindex -list ''" "cindex -list \$far"; do
    try 0 "$home/trees/a\n" '' "$command"
    holds "stat -c '%i %y %z' index | cmp -s - results/untouched && [ ! -e index~ ] # after $command"
done
holds "cmp -s index results/old"
try 2 '' 'cindex: no index\n' "CSEARCHINDEX=\$home/none cindex -list -reset"
holds "[ ! -e none ]"

# ---- histories: after each job the index is the one of a single build --------------------------------------------------
# afresh PATH..: the index is that of the paths, built at once
afresh() {
    CSEARCHINDEX=$home/results/fresh "$program" cindex -reset "$@" 2>/dev/null
    cmp -s index results/fresh
}
mkdir trees/h trees/h/d trees/h/da trees/h/d-e
for name in f d/g da/g d-e/g; do printf 'first %s\n' "$name" > "trees/h/$name"; done
try 0 '' '' "cindex -reset trees/h"
printf 'second\n' > trees/h/d/g
try 0 '' '' "cindex trees/h/d"
holds "afresh trees/h"
printf 'added\n' > trees/h/d/new
try 0 '' '' "cindex trees/h/d/new"
holds "afresh trees/h"
rm trees/h/d/g
try 0 '' "cindex: $home/trees/h/d/g: no such file\n" "cindex trees/h/d/g"
holds "afresh trees/h"
rm -r trees/h/d
printf 'a file now\n' > trees/h/d
try 0 '' '' "cindex trees/h/d"
holds "afresh trees/h"
rm trees/h/d
mkdir trees/h/d
printf 'a folder again\n' > trees/h/d/g
try 0 '' '' "cindex trees/h/d"
holds "afresh trees/h"
try 0 "$home/trees/h\n" '' "cindex -list"
printf 'changed\n' | tee trees/h/f trees/h/da/g > trees/h/d-e/g
try 0 '' '' "cindex trees/h/da"
try 0 "$home/trees/h/da/g:changed\n" '' "csearch changed"
try 0 '' '' "cindex"
holds "afresh trees/h"
try 0 '' '' "cindex trees/a trees/b trees/h/d trees/h"
holds "afresh trees/a trees/b trees/h"
rm -r trees/unnamed
try 0 '' '' "cindex trees"
try 0 "$home/trees\n" '' "cindex -list"
holds "afresh trees"
try 0 '' '' "cindex -reset trees/a"
holds "cmp -s index results/old"
cp index results/whole
# damage OFFSET BYTE: changes one byte of the index; BYTE as printf writes it
damage() {
    { head -c "$1" results/whole; printf "$2"; tail -c +$(($1 + 2)) results/whole; } > index
    cp index results/damaged
}
for place in 0 20 60 70 90 110 130; do
    damage $place '\377'
    cindex trees/a 2> results/said
    case $? in
        0) holds "cindex -list > /dev/null" ;;
        *) holds "grep -q '^cindex: bad index: ' results/said && cmp -s index results/damaged" ;;
    esac
done
# The third number of the trailer is the offset of the posting lists. The first list is that of abc: a delta, and a closing
# zero.
lists=$(tail -c 28 results/whole | head -c 4 | od -An -tu1 | awk '{ print (($1 * 256 + $2) * 256 + $3) * 256 + $4 }')
for byte in '\001' '\377'; do
    damage $((lists + 4)) "$byte"
    try 2 '' 'cindex: bad index: list\n' "cindex trees/a"
    try 2 '' "cindex: $home/trees/none: no such file\ncindex: bad index: list\n" "cindex trees/a trees/none"
    try 2 '' 'csearch: bad index: list\n' "csearch abc"
    holds "cmp -s index results/damaged"
done

# ---- a real tree ------------------------------------------------------------------------------------------------------
mkdir trees/real
(cd "$root" && tar -cf - --exclude=out --exclude=.git crates docs tests) | tar -xf - -C trees/real
rm trees/real/tests/shell/errors.tsv # it has a line of 10000 letters
try 0 '' '' "cindex -reset trees/real"
holds "[ \$(csearch -brute -l '' | wc -l) -gt 100 ]"
try 0 "$home/trees/real\n" '' "cindex -list"
same "csearch -brute -l ''" "find \$home/trees/real -type f -size +0 | LC_ALL=C sort"
cp index results/new

# ---- a killed run, and two runs at one time ----------------------------------------------------------------------------
began=$(date +%s%N)
cindex -reset trees/real
took=$((($(date +%s%N) - began) / 1000000)) # milliseconds
# A random moment, in seconds, during a run.
moment() {
    awk -v most="$took" -v seed="$(od -An -N4 -tu4 /dev/urandom)" 'BEGIN { srand(seed); printf "%.3f\n", rand() * most / 1000 }'
}
# Every other run is killed during its write.
time=0
while [ $time -lt 100 ]; do
    time=$((time + 1))
    rm -f index~
    cp results/old index
    "$program" cindex -reset trees/real 2>/dev/null &
    if [ $((time % 2)) -eq 0 ]; then
        sleep "$(moment)"
    else
        while [ ! -s index~ ] && kill -0 $! 2>/dev/null; do :; done
    fi
    kill -9 $! 2>/dev/null
    wait $! 2>/dev/null
    holds "cmp -s index results/old || cmp -s index results/new"
done
try 0 '' '' "cindex -reset trees/real"
holds "cmp -s index results/new && [ ! -e index~ ]"
# Of two concurrent runs, one may fail because the other one is writing; at least one succeeds.
CSEARCHINDEX=$home/results/both "$program" cindex -reset trees/real trees/b
for time in 1 2 3 4 5; do
    cp results/old index
    "$program" cindex -reset trees/real 2> results/one &
    "$program" cindex -reset trees/real trees/b 2> results/two &
    wait
    holds "cmp -s index results/new || cmp -s index results/both"
    holds "[ ! -e index~ ] && ! cat results/one results/two | grep -vx \"codesearch: cannot write \$home/index\""
done
# No update is lost if two runs add to the same index: a run that finds the index changed fails.
for time in 1 2 3 4 5 6 7 8 9 10 11 12 13 14 15 16 17 18 19 20; do
    rm -f index
    "$program" cindex trees/a 2> results/one &
    one=$!
    "$program" cindex trees/b 2> results/two &
    two=$!
    wait $one && echo "$home/trees/a" > results/wanted || : > results/wanted
    wait $two && echo "$home/trees/b" >> results/wanted
    holds "cindex -list | cmp - results/wanted && [ -s results/wanted ]"
    holds "[ ! -e index~ ] && ! cat results/one results/two | grep -vx \"codesearch: cannot write \$home/index\""
done
cp results/old index
if command -v flock > /dev/null; then
    try 2 '' "codesearch: cannot write $home/index\n" "flock index~ \"\$program\" cindex trees/b"
    holds "cmp -s index results/old && rm index~"
else
    skipped 'a run while another is sure to write: there is no flock'
fi

# ---- the Go tools -----------------------------------------------------------------------------------------------------
try 0 '' '' "cindex -reset trees/real"
if [ -n "$go_csearch" ]; then
    find "$home/trees/real" -type f -size +0 | LC_ALL=C sort > results/names
    for pattern in 'requires' 'fn [a-z]+_of' '^use .*specs' '[Tt]rigram'; do
        same "\$go_csearch -n '$pattern'" "LC_ALL=C xargs -s 1000000 grep -aEHn '$pattern' < results/names"
    done
    same "\$go_csearch -n -i TRIGRAM" "LC_ALL=C xargs -s 1000000 grep -aEHni TRIGRAM < results/names"
    same "csearch '(?i)trigram'" "\$go_csearch '(?i)trigram'"
    CSEARCHINDEX=$home/results/go "$go_cindex" -reset "$home/trees/real" 2>/dev/null
    same "CSEARCHINDEX=\$home/results/go csearch requires | sort" "csearch requires | sort"
    same "CSEARCHINDEX=\$home/results/go cindex -list" "CSEARCHINDEX=\$home/results/go \$go_cindex -list"
    # Our cindex continues from an index that Go's cindex built or merged: the result is that of a fresh build.
    cp results/go results/old
    try 0 '' '' 'CSEARCHINDEX=$home/results/old cindex && cmp results/old index'
    cp results/go results/old
    cp index results/joined
    try 0 '' '' 'CSEARCHINDEX=$home/results/old cindex trees/odd 2>/dev/null && CSEARCHINDEX=$home/results/joined cindex trees/odd 2>/dev/null && cmp results/old results/joined'
    CSEARCHINDEX=$home/results/old "$go_cindex" -reset "$home/trees/odd" 2>/dev/null
    CSEARCHINDEX=$home/results/old "$go_cindex" "$home/trees/real" 2>/dev/null
    same "CSEARCHINDEX=\$home/results/old csearch requires | sort" "csearch requires | sort"
    try 0 '' '' 'CSEARCHINDEX=$home/results/old cindex 2>/dev/null && CSEARCHINDEX=$home/results/joined cindex 2>/dev/null && cmp results/old results/joined'
    same "CSEARCHINDEX=\$home/results/old \$go_csearch requires | sort" "csearch requires | sort"
    if command -v perl > /dev/null; then
        same "perl \$root/tests/shell/lists.pl index" "perl \$root/tests/shell/lists.pl results/go"
        rm trees/odd/nul # Go's cindex has it
        same "cindex -reset trees/odd; perl \$root/tests/shell/lists.pl index" "CSEARCHINDEX=\$home/results/go \$go_cindex -reset \$home/trees/odd 2>/dev/null; perl \$root/tests/shell/lists.pl results/go"
        cindex -reset trees/real
        holds "[ \$(perl \$root/tests/shell/lists.pl index | grep -c '^[0-9a-f]\\{6\\}:') -gt 10000 ]"
    else
        skipped 'the same names and posting lists: there is no perl'
    fi
else
    skipped 'the Go tools: they are not installed'
fi
