#!/bin/bash
# Runs csparts(1) on one machine and over three hosts. If this is root, and iproute2, util-linux and openssh are installed, each host
# is a network namespace with an ssh server, folders and processes of its own, which then is cut off, stopped, filled and killed.
# Otherwise the hosts are three folders of this machine.
# usage: tests/shell/parts.sh PROGRAM

. "$(dirname -- "$0")/library.sh"

needs awk setpriv
[ -x /usr/bin/python3 ] || { skipped 'all of parts.sh: there is no /usr/bin/python3'; summary; exit; }
PATH=$PATH:/usr/sbin:/sbin
LC_ALL=C
HOME=$fresh/head
export PATH LC_ALL HOME
unset CSPARTS CSPARTS_SSH CSPARTS_COMMAND CSEARCHINDEX
mkdir -p "$HOME" "$fresh/bin"
chmod 755 "$fresh"
hosts='alpha beta gamma'

good() { passed=$((passed + 1)); }
bad() { failed=$((failed + 1)); printf 'FAILED: %s\n' "$1"; }
# expect NAME WANTED CAME
expect() { if [ "$2" = "$3" ]; then good; else bad "$1: wanted '${2:0:300}', came '${3:0:300}'"; fi; }
# that NAME COMMAND..: the command is true; what a search or an update said is shown otherwise
that() { local name=$1; shift; if "$@"; then good; else bad "$name: $(head -c 1000 "$fresh/err" 2> /dev/null)"; fi; }
# within NAME SECONDS COMMAND..: the command becomes true in time
within() {
    local name=$1 tries=$(($2 * 10)); shift 2
    while ! "$@"; do
        tries=$((tries - 1))
        [ $tries -gt 0 ] || { bad "$name"; return; }
        sleep .1
    done
    good
}

# The tools: a file slow-csearch or slow-cindex in /srv lets them sleep. A warning of Python is an error.
for tool in cindex csearch; do
    printf '#!/bin/sh\n[ "$1" = -list ] || [ ! -e "${SRV:-/srv}/slow-%s" ] || exec sleep 97\nexec %s %s "$@"\n' $tool "$program" $tool
done | awk -v to="$fresh/bin/" '/^#!/ { file = to (n++ ? "csearch" : "cindex") } { print > file }'
printf '#!/bin/sh\nexec /usr/bin/python3 -W error -ISXutf8 %s "$@"\n' "$fresh/bin/csparts.py" > "$fresh/bin/csparts"
cp "$root/bin/csparts" "$fresh/bin/csparts.py"
chmod +x "$fresh"/bin/*
PATH=$fresh/bin:$PATH

# repository FOLDER NUMBER: files that are the same each time
repository() {
    mkdir -p "$1/sub"
    awk -v n="$2" 'BEGIN { for (i = 0; i < 40 + (n * 37) % 200; i++) print "int f" n "_" i "(void) { return " i * n "; } /* shared word */" }' \
        > "$1/a.c"
    awk -v n="$2" 'BEGIN { print "only" n " it'\''s a \"$HOME\" {} {1} a\\b `x`"; for (i = 0; i < n; i++) print "line " i }' > "$1/sub/b.txt"
}
# Files that are younger than 50 ms count as changed.
rest() { sleep .1; }

# ---- one machine ----------------------------------------------------------------------------------------------------------------
expect 'the script as it is installed' 'csparts: usage: csparts [-g] [-u] [-d DIR] [-j N] [-m SIZE] [-t SECONDS] COMMAND' \
    "$("$root/bin/csparts" 2>&1 | head -n 1)"
export CSPARTS=$fresh/parts
tree=$fresh/src
one() { CSEARCHINDEX=$fresh/one csearch "$@" 2> /dev/null; }
all() { CSEARCHINDEX=$fresh/one cindex "$tree"; }
# alike ARGUMENTS..: csparts finds the lines that one index has
alike() {
    one "$@" > "$fresh/want"; local want=$?
    csparts search "$@" > "$fresh/got" 2> "$fresh/err"; local got=$?
    expect "search $*: status" $want $got
    that "search $*: lines" cmp -s <(sort "$fresh/want") <(sort "$fresh/got")
}
# index STATUS NAME: an update
index() { csparts index 2> "$fresh/err"; expect "$2: status" "$1" $?; }
inodes() { ls -i "$CSPARTS"/*.index; }
where() { for part in "$CSPARTS"/*.part; do cut -f2 "$part" | sed "s|\$| ${part##*/}|"; done | sort; }
part_of() { where | sed -n "s|^$1 \(.*\).part|\1|p"; }

for n in $(seq 1 40); do repository "$tree/r$n" "$n"; done
rest
csparts cut 2> "$fresh/err"; expect 'nothing to cut' 2 $?
csparts search shared 2> "$fresh/err"; expect 'no parts to search' 2 $?
csparts -m 60K cut "$tree" > "$fresh/due"
expect 'cut prints the parts to be indexed' "$(cd "$CSPARTS" && ls *.part | sed 's/\.part//')" "$(cat "$fresh/due")"
that 'more than five parts' [ "$(wc -l < "$fresh/due")" -gt 5 ]
expect 'each member is in one part' "$(ls -d "$tree"/* | sort)" "$(cut -f2 "$CSPARTS"/*.part | sort)"
expect 'no part is over its limit' '' "$(for part in "$CSPARTS"/*.part; do awk '{ s += $1 } END { if (s > 61440) print FILENAME }' "$part"; done)"
csparts search shared > /dev/null 2> "$fresh/err"; expect 'no part has an index' 2 $?
that 'the part is named' grep -q '^csparts: part 0001: has no index yet$' "$fresh/err"
index 0 'the first index'
all
alike 'shared word'; alike -n 'f7_1'; alike -l shared; alike -c shared; alike -h 'only1'; alike -i SHARED; alike -f 'r7/' shared
alike nowhere_at_all; alike -brute -l ''; alike -- '-nothing'; alike -n -f '[.]txt$' "it's"; alike '"[$]HOME"'; alike '{1}'
alike 'only[0-9]{2}'; alike 'a\\b'; alike '`x`'; alike '[{][}]'; alike ' a '; alike ''
csparts search 'shared word' > "$fresh/first"; csparts search 'shared word' > "$fresh/again"
that 'the same order each time' cmp -s "$fresh/first" "$fresh/again"
expect 'the order: by part, and by name in each' "$(for part in "$CSPARTS"/*.index; do CSEARCHINDEX=$part csearch -l shared; done)" \
    "$(csparts search -l shared)"
csparts search '(' > /dev/null 2>&1; expect 'a wrong pattern' 2 $?
expect '| head prints its line' 1 "$(csparts search shared 2> "$fresh/err" | head -n 1 | wc -l)"

inodes > "$fresh/before"
rest
index 0 'nothing has changed'
expect 'nothing has changed: no index is written' "$(cat "$fresh/before")" "$(inodes)"
echo 'a new line' >> "$tree/r9/a.c"; rest
index 0 'one file has changed'
inodes > "$fresh/after"
expect 'one file has changed: one index is written' 1 "$(diff "$fresh/before" "$fresh/after" | grep -c '^>')"
expect 'the new line is found' "$tree/r9/a.c:a new line" "$(csparts search 'a new line')"

where > "$fresh/before"
repository "$tree/r41" 41; rest
index 0 'a new repository'
where > "$fresh/after"
expect 'a new repository moves no other' 1 "$(diff "$fresh/before" "$fresh/after" | grep -c '^[<>]')"
all; alike only41

# a part that is split, whose new half cannot be written: the old one keeps all members
grown=$(part_of "$tree/r9")
where > "$fresh/before"
for n in $(seq 1 600); do echo "int grown$n; /* shared word */"; done >> "$tree/r9/a.c"; rest
all
last=$(ls "$CSPARTS"/*.part | tail -n 1); last=${last##*/}; next=$(printf %04d $((10#${last%.part} + 1)))
mkdir "$CSPARTS/$next.index~"
index 2 'a part that is split and cannot be written'
that 'it is named' grep -q "^csparts: part $next: failed" "$fresh/err"
where > "$fresh/after"
expect 'only members of the part that grew move' '' "$(diff "$fresh/before" "$fresh/after" | sed -n 's/^< [^ ]* //p' | grep -v "^$grown.part\$")"
expect 'no member is lost meanwhile' "$(one -l shared | grep -c .)" "$(csparts search -l shared 2> /dev/null | sort -u | grep -c .)"
csparts status > "$fresh/status"; expect 'status: a part has no index' 2 $?
that 'status names the part' grep -q "^$next none " "$fresh/status"
rmdir "$CSPARTS/$next.index~"
index 0 'the next run mends it'
alike -c shared
csparts status > "$fresh/status"; expect 'status: all is well' 0 $?

# a part that cannot be written keeps its old index
broken=$(part_of "$tree/r3")
mkdir "$CSPARTS/$broken.index~"
echo 'late line' >> "$tree/r3/a.c"; echo 'late line' >> "$tree/r4/a.c"; rest
index 2 'a part that cannot be written'
that 'it is named, and its old index stands' grep -q "^csparts: part $broken: failed.*old index stands" "$fresh/err"
that 'status names it' grep -q "^$broken failed" <(csparts status 2> /dev/null)
that 'the others are updated' grep -q "$tree/r4/a.c" <(csparts search -l 'late line' 2> /dev/null)
that 'the old index is searched' grep -q "$tree/r3/" <(csparts search -l 'only3' 2> /dev/null)
rmdir "$CSPARTS/$broken.index~"
index 0 'it can be written again'
all; alike -l 'late line'

# -g: git says what has changed
mkdir "$tree/r7/.git"; echo 'ref: refs/heads/main' > "$tree/r7/.git/HEAD"; echo 1 > "$tree/r7/.git/index"
csparts -g index; expect '-g: status' 0 $?
echo 'by hand' >> "$tree/r7/a.c"; rest
csparts -g index; csparts search 'by hand'; expect '-g: git has not changed the clone' 1 $?
echo 22 > "$tree/r7/.git/index"
csparts -g index; expect '-g: git has changed it' "$tree/r7/a.c" "$(csparts search -l 'by hand')"
rm -r "$tree/r7/.git"; rest
index 0 'without git'; all; alike -c shared

# a repository of more than half a part is cut at its folders
for f in a b c d; do for n in $(seq 1 400); do echo "int more$n; /* shared word in $f */"; done > "$tree/r12/$f.c"; done
mkdir "$tree/r12/empty"; rest
index 0 'a repository outgrows half a part'
expect 'it is cut' "$(ls -d "$tree"/r12/* | sort)" "$(cut -f2 "$CSPARTS"/*.part | grep "^$tree/r12/" | sort)"
all; alike -c shared
echo 'and a file more' > "$tree/r12/e.c"; rest
index 0 'a file is added to it'
all; alike 'and a file more'
inodes > "$fresh/before"; rest
index 0 'nothing has changed, and a folder is empty'
expect 'no index is written' "$(cat "$fresh/before")" "$(inodes)"
touch "$tree/r12/$(printf 'caf\351')" "$tree/r12/two
lines"; rest
index 0 'names that are not indexed'
expect 'they are printed' 2 "$(grep -c 'is not indexed: ' "$fresh/err")"
rm "$tree"/r12/caf* "$tree"/r12/two*

rm -r "$tree/r5"; rest
index 0 'a repository goes'; all; alike -l shared
# a new member whose part fails, and that goes again
repository "$tree/r77" 7; rest
broken=$(csparts cut); mkdir "$CSPARTS/$broken.index~"
index 2 'a new member in a part that fails'
rm -r "$tree/r77"; rmdir "$CSPARTS/$broken.index~"
index 0 'the member has gone'
csparts status > "$fresh/status"; expect 'all is well again' 0 $?
alike -c shared

# members moved by hand: two parts exchange one each
set -- $(cd "$CSPARTS" && ls *.part | head -n 2)
first=$(head -n 1 "$CSPARTS/$1") second=$(head -n 1 "$CSPARTS/$2")
{ sed 1d "$CSPARTS/$1"; echo "$second"; } > "$fresh/1"; { sed 1d "$CSPARTS/$2"; echo "$first"; } > "$fresh/2"
cp "$fresh/1" "$CSPARTS/$1"; cp "$fresh/2" "$CSPARTS/$2"
expect 'members moved by hand: status says stale' 2 "$(csparts status | grep -c ' stale ')"
index 0 'members moved by hand'
alike -c shared
expect 'they are where they were put' "$1 $2" "$(cd "$CSPARTS" && echo $(grep -l -F "$second" *.part) $(grep -l -F "$first" *.part))"

# sources that come, go, and are missing for a moment
repository "$fresh/more/s1" 3; repository "$fresh/more/s2" 4; rest
csparts cut "$fresh/more/s1" "$fresh/more/s2" "$tree/r1" > "$fresh/due"
expect 'a source inside of another is not kept' 0 "$(grep -c "$tree/r1\$" "$CSPARTS/sources")"
index 0 'more sources'
csparts cut "$fresh/nowhere" 2> "$fresh/err"; expect 'a source that does not exist' 2 $?
sed -i "\|$fresh/more/s2\$|d" "$CSPARTS/sources"; mv "$fresh/more/s1" "$fresh/more/s1.away"
index 2 'one source is taken away, and one is missing'
that 'it is named' grep -q "^csparts: $fresh/more/s1 is missing or empty" "$fresh/err"
mv "$fresh/more/s1.away" "$fresh/more/s1"
that 'what is indexed of the missing one stays' grep -q "$fresh/more/s1/" <(csparts search -l shared 2> /dev/null)
index 0 'it is back'
expect 'the one that was taken away is gone' "$fresh/more/s1/a.c" "$(csparts search -l -f "^$fresh/more" shared)"
sed -i "\|$fresh/more/s1\$|d" "$CSPARTS/sources"
index 0 'the last one is taken away'; alike -l shared
mv "$tree" "$tree.away"; mkdir "$tree"
index 2 'a source that is empty, as if it were not mounted'
rmdir "$tree"; mv "$tree.away" "$tree"
alike -l shared
index 0 'it is mounted again'

# a missing and a damaged index
mv "$CSPARTS/$broken.index" "$fresh/kept"
csparts search shared > "$fresh/got" 2> "$fresh/err"; expect 'a missing index' 2 $?
that 'the part is named, the others are printed' eval "[ -s '$fresh/got' ] && grep -q '^csparts: part $broken' '$fresh/err'"
printf damaged > "$CSPARTS/$broken.index"
csparts search shared > "$fresh/got" 2> "$fresh/err"; expect 'a damaged index' 2 $?
that 'the part is named, the others are printed' eval "[ -s '$fresh/got' ] && grep -q '^csparts: part $broken: failed' '$fresh/err'"
echo 'a line for it' >> "$(sed -n '1s/^[0-9]*\t//p' "$CSPARTS/$broken.part")/a.c"; rest
index 2 'an update of a damaged index'
index 0 'the next run builds it anew'
rm "$CSPARTS/$broken.done"
index 0 'a part whose stamps are lost'
all; alike -l shared

# another engine runs each part by itself, as a job array of Slurm does
rm "$CSPARTS"/*.index "$CSPARTS"/*.done
csparts cut > "$fresh/due"
xargs -P 4 -n 1 csparts -j 1 index < "$fresh/due" 2> "$fresh/err"; expect 'each part by itself' 0 $?
csparts status > "$fresh/status"; expect 'all are indexed' 0 $?
alike -c shared
for n in 1 2 3 4; do echo 'another line' >> "$tree/r$n/a.c"; done; rest
mkdir "$CSPARTS/$broken.index~"; echo 'another line' >> "$(sed -n '1s/^[0-9]*\t//p' "$CSPARTS/$broken.part")/a.c"; rest
csparts cut > "$fresh/due"
xargs -P 4 -n 1 csparts -j 1 index < "$fresh/due" 2> "$fresh/err"; expect 'each part by itself, one fails' 123 $?
that 'it is named' grep -q "^csparts: part $broken: failed" "$fresh/err"
rmdir "$CSPARTS/$broken.index~"
index 0 'then all'
csparts index 9999 2> "$fresh/err"; expect 'a part that does not exist' 2 $?
all; alike -c shared

# ---- three hosts -----------------------------------------------------------------------------------------------------------------
command -v parallel > /dev/null || { skipped 'the hosts: GNU parallel is not installed'; summary; exit; }
for host in $hosts; do mkdir -p "$fresh/$host/srv/parts" "$fresh/$host/srv/src"; done

# Hosts that print what is no line of theirs. Each has the parts of this machine, and an ssh of its own: `cut` ends in the middle of a
# line, `mark` in that of its last one, `short` does too and says that all is well, `greets` has a banner, and `logs` what it is asked.
mkdir "$fresh/ssh" "$fresh/odd"
cat > "$fresh/ssh/ssh" <<'END'
#!/bin/bash
printf '%s\n' "$*" >> "${0%/*}/asked"
while :; do
    case $1 in -n) shift ;; -o) shift 2 ;; -o*) exit 255 ;; --) shift; break ;; *) break ;; esac
done
host=$1 CSPARTS=$PARTS; shift
case $host in
    cut) "$@" 2> /dev/null | { head -n 5; printf 'half a li'; }; exit 255 ;;
    short) "$@" 2> /dev/null | { head -n 5; printf 'half a li'; }; exit 0 ;;
    mark) "$@" | head -c -2; exit 255 ;;
    greets) printf 'Welcome\nshared word'; "$@"; code=$?; printf 'Goodbye\nshared word'; exit $code ;;
    nologin) echo 'This account is not available.'; exit 1 ;;
    logs) for word; do printf '%s\n%s 0\n%s 1\n' "$word" "$word" "$word"; done > "$LOG"; "$@" ;;
    *) "$@" ;;
esac
END
chmod +x "$fresh/ssh/ssh"
csparts search 'shared word' > "$fresh/want"
lines=$(grep -c . "$fresh/want")
# odd NAME STATUS LINE HOST..: these hosts in this order; what they print are lines of the parts, and the first and the last print all
odd() {
    local name=$1 status=$2 said=$3 option; shift 3
    printf '%s\n' "$@" > "$fresh/odd/hosts"
    for option in '' -u; do
        PATH=$fresh/ssh:$PATH csparts $option -d "$fresh/odd" search 'shared word' > "$fresh/got" 2> "$fresh/err"; expect "$name $option: status" $status $?
        expect "$name $option: standard error" "$said" "$(cat "$fresh/err")"
        expect "$name $option: no other line" '' "$(grep -v -x -F -f "$fresh/want" "$fresh/got" | head -n 3)"
        [ -n "$option" ] || that "$name: the lines of the others" eval 'cmp -s "$fresh/want" <(head -n $lines "$fresh/got") &&
            cmp -s "$fresh/want" <(tail -n $lines "$fresh/got")'
    done
}
export PARTS=$fresh/parts LOG=$fresh/logged/source/log
odd 'whole hosts' 0 '' one two
expect 'all lines of both' $((2 * lines)) "$(grep -c . "$fresh/got")"
that 'no host is an option of ssh' grep -q -e ' -- one ' "$fresh/ssh/asked"
odd 'a host that is cut in the middle of a line' 2 'csparts: cut: cut off, status 255' one cut two
that 'its whole lines are printed' [ "$(grep -c . "$fresh/got")" -gt $((2 * lines)) ]
odd 'a host that is cut, and says that all is well' 2 'csparts: short: cut off, status 0' one short two
odd 'a host that is cut in its last line' 2 'csparts: mark: cut off, status 255' one mark two
expect 'all of its lines are printed' $((3 * lines)) "$(grep -c . "$fresh/got")"
odd 'a banner' 0 '' greets greets
expect 'all lines of both' $((2 * lines)) "$(grep -c . "$fresh/got")"
odd 'a login shell that runs nothing' 2 'csparts: nologin: no answer, status 1' one nologin two
# a file that has each word of the call, and lines like the marks
mkdir -p "$fresh/logged/source"; echo 'not asked yet' > "$LOG"; rest
csparts -d "$fresh/logged" cut "$fresh/logged/source" > "$fresh/due"; csparts -d "$fresh/logged" index
echo logs > "$fresh/odd/hosts"
PARTS=$fresh/logged PATH=$fresh/ssh:$PATH csparts -d "$fresh/odd" search -h '' > "$fresh/got" 2> "$fresh/err"; expect 'a log of the call' 0 $?
that 'a log of the call: lines' cmp "$LOG" "$fresh/got"
that 'a log of the call has its nonce' grep -q -x '[0-9a-f]\{32\} 0' "$LOG"
rm "$fresh/ssh/asked"
odd_option="-oProxyCommand=touch $fresh/hacked"
for verb in 'search shared' index cut status place; do
    printf '%s\n' one "$odd_option" > "$fresh/odd/hosts"
    PATH=$fresh/ssh:$PATH csparts -d "$fresh/odd" $verb < /dev/null > "$fresh/got" 2> "$fresh/err"; expect "$verb: a host that is an option" 2 $?
    expect "$verb: it is named" "csparts: not the name of a host: $odd_option" "$(cat "$fresh/err")"
done
that 'no host is asked' [ ! -e "$fresh/ssh/asked" ]

export CSPARTS=$fresh/asks
mkdir "$CSPARTS"
printf '%s\n' $hosts > "$CSPARTS/hosts"
number=10
for host in $hosts; do
    number=$((number + 1))
    for n in $(seq $number 3 45); do repository "$fresh/$host/srv/src/$host-$n" "$n"; done
    mkdir -p "$fresh/all/srv/src"
    cp -a "$fresh/$host/srv/src/." "$fresh/all/srv/src/"
done
CSEARCHINDEX=$fresh/whole cindex "$fresh/all"

why=
for tool in ip unshare nsenter sshd ssh ssh-keygen; do command -v $tool > /dev/null || why="$tool is not installed"; done
[ "$(id -u)" = 0 ] || why='this is not root'
[ -n "$why" ] || unshare --mount --uts --pid --net --fork true 2> /dev/null || why='no namespace can be made'
if [ -n "$why" ]; then
    skipped "hosts of their own, which fail: $why"
    # a host is a folder of this machine
    cat > "$fresh/reach" <<END
#!/bin/sh
[ ! -e "$fresh/\$1/down" ] || exit 255
SRV=$fresh/\$1/srv CSPARTS=$fresh/\$1/srv/parts
export SRV CSPARTS
shift
exec sh -c "\$*"
END
    chmod +x "$fresh/reach"
    export CSPARTS_SSH=$fresh/reach
    ask() { "$@"; }
    at() { "$fresh/reach" "$@"; }
    sources() { echo "$fresh/$1/srv/src"; }
else
    . "$root/tests/shell/hosts.sh"
    sources() { echo /srv/src; }
fi

for host in $hosts; do
    at $host csparts -m 60K cut "$(sources $host)" > /dev/null || bad "cut on $host"
done
rest
ask csparts index 2> "$fresh/err"; expect 'hosts: index' 0 $?
expect 'it says nothing' '' "$(cat "$fresh/err")"
# over ARGUMENTS..: the hosts find the lines that one index has
over() {
    CSEARCHINDEX=$fresh/whole csearch "$@" > "$fresh/found" 2> "$fresh/err"; local want=$?
    ask csparts search "$@" > "$fresh/got" 2> "$fresh/err"; local got=$?
    expect "hosts: search $(printf '%q ' "$@"): status" $want $got
    that "hosts: search $(printf '%q ' "$@"): lines" cmp -s <(sed "s|^$fresh/[a-z]*/srv|/srv|" "$fresh/found" | sort) \
        <(sed "s|^$fresh/[a-z]*/srv|/srv|" "$fresh/got" | sort)
}
over -n 'shared word'; over -l shared; over -c shared; over -i ONLY2; over -f 'beta-1[0-9]/' shared; over nowhere_at_all
over "it's"; over '"[$]HOME"'; over '{1}'; over 'only[0-9]{2}'; over 'a\\b'; over '`x`'; over '[{][}] [{]1'; over ' a  *"'; over ''
over -- '-n'; over 'x;touch /srv/hacked'; over '$(touch /srv/hacked)'; over '`touch /srv/hacked`'; over "'; touch /srv/hacked; '"
over '*'; over "two
lines"; over 'é'; over '#'; over '~'; over '!'; over '%s\n'; over '\x27\x22'
that 'no shell reads a pattern' [ ! -e "$fresh/alpha/srv/hacked" ] 
that 'nor here' [ ! -e /srv/hacked ]
for pattern in '(' "$(printf 'caf\351')"; do
    ask csparts search "$pattern" > "$fresh/got" 2> "$fresh/err"; expect 'a wrong pattern' 2 $?
    expect 'one line says so' 1 "$(grep -c . "$fresh/err")"
done
over 'shared word'; cp "$fresh/got" "$fresh/first"
ask csparts search 'shared word' > "$fresh/again"
that 'hosts: the same order each time' cmp -s "$fresh/first" "$fresh/again"
that 'hosts: -u prints the same lines' cmp -s <(ask csparts -u search 'shared word' | sort) <(sort "$fresh/first")
ask csparts status > "$fresh/status"; expect 'hosts: status' 0 $?
expect '| head prints its line' 1 "$(ask csparts search . 2> "$fresh/err" | head -n 1 | wc -l)"
ask csparts index 0001 2> "$fresh/err"; expect 'hosts: a part is of one host' 2 $?

# this machine is a host too, and which host is to have a new name
mkdir "$fresh/mixed"; printf ':\n' > "$fresh/mixed/hosts"; cp "$fresh/parts"/*.part "$fresh/parts"/*.index "$fresh/parts"/*.done "$fresh/mixed"
expect 'the host : is this machine' "$(one -l shared | sort)" "$(csparts -d "$fresh/mixed" search -l shared | sort)"
names() { printf '%s\n' '50 a' '40 b' '30 c' '20 d' '10 e' "$@"; }
expect 'place: all names' 5 "$(names | ask csparts place | grep -c .)"
expect 'place: the new one' 1 "$(names '60 f' | ask csparts place | grep -c .)"
expect 'place: none is new' 0 "$(names '60 f' | ask csparts place | grep -c .)"

# a search that does not end: its host names the part after the limit of time
without_beta=$(grep -v "/beta-" "$fresh/first" | cut -d: -f1 | sort -u | grep -c .)
took() { expect "$1: at most $2 s" 1 $(($(date +%s) - begin <= $2)); }
: > "$fresh/beta/srv/slow-csearch"
begin=$(date +%s)
ask csparts -t 2 search -l shared > "$fresh/got" 2> "$fresh/err"; expect 'a search that does not end' 2 $?
took '-t 2' 6
that 'the part is named' grep -q '^csparts: beta: part 0001: not searched to its end in 2 seconds' "$fresh/err"
expect 'the lines of the others' "$without_beta" "$(grep -c . "$fresh/got")"
rm "$fresh/beta/srv/slow-csearch"
if [ -n "$why" ]; then
    : > "$fresh/beta/down"
    ask csparts search -l shared > "$fresh/got" 2> "$fresh/err"; expect 'a host that cannot be reached' 2 $?
    that 'it is named' grep -q '^csparts: beta: cannot be reached' "$fresh/err"
    expect 'the lines of the others' "$without_beta" "$(grep -c . "$fresh/got")"
    summary
    exit
fi

# ---- hosts that fail ---------------------------------------------------------------------------------------------------------------
comms() { for pid in $(ip netns pids $net$1); do cat /proc/$pid/comm 2> /dev/null; done; }
idle() { local host; for host in $hosts; do ! comms $host | grep -q -E 'sleep|cindex|csearch|python3|codesearch' || return 1; done; }
slow() { for host in $hosts; do : > "$fresh/$host/srv/slow-$1"; done; }
quick() { for host in $hosts; do rm -f "$fresh/$host/srv/slow-$1"; done; }
working() { for host in $hosts; do comms $host | grep -q sleep || return 1; done; }
change() { for host in $hosts; do echo "again $1" >> "$(ls -d "$fresh/$host"/srv/src/* | head -n 1)/a.c"; done; }
# kill_on HOST COMMAND: kills the processes of this name there
kill_on() { for pid in $(ip netns pids $net$1); do [ "$(cat /proc/$pid/comm 2> /dev/null)" != $2 ] || kill -9 $pid; done; }
within 'nothing is left running' 5 idle

# The work ends on all hosts if nobody reads, and at Ctrl-C, TERM and KILL, over kept connections and new ones.
for way in kept config; do
    export CSPARTS_SSH="ssh -n -F $fresh/$way"
    slow csearch; quick cindex
    { ask csparts search shared 2> "$fresh/err"; } | sleep 3 &
    within "$way: searches are at work on all hosts" 3 working
    within "$way: a closed output ends them" 6 idle
    wait $!
    for verb in search index; do
        slow cindex
        change $verb
        for signal in INT TERM KILL; do
            ( exec setsid ip netns exec ${net}head csparts $verb $([ $verb = index ] || echo shared) > /dev/null 2>&1 ) & asked=$!
            within "$way: $verb is at work on all hosts" 5 working
            if [ $signal = INT ]; then kill -INT -- -$asked; else kill -$signal $asked; fi
            wait $asked 2> /dev/null
            within "$way: $verb: $signal ends it on all hosts" 8 idle
        done
    done
done
export CSPARTS_SSH="ssh -n -F $fresh/kept"
quick csearch; quick cindex
ask csparts index 2> /dev/null; expect 'an update after these' 0 $?

# a host that is cut off: its link is down
ip -n ${net}head link set $link_beta down
begin=$(date +%s)
ask csparts search -l shared > "$fresh/got" 2> "$fresh/err"; expect 'a host that is cut off' 2 $?
took 'a host that is cut off' 12
that 'it is named' grep -q '^csparts: beta: ' "$fresh/err"
expect 'the lines of the others' "$without_beta" "$(grep -c . "$fresh/got")"
ip -n ${net}head link set $link_beta up
within 'beta answers again' 10 up beta
# a host that stands still
frozen=$(ip netns pids ${net}beta)
kill -STOP $frozen
begin=$(date +%s)
ask csparts -t 3 search -l shared > "$fresh/got" 2> "$fresh/err"; expect 'a host that stands still' 2 $?
took 'a host that stands still' 12
that 'it is named' grep -q '^csparts: beta: ' "$fresh/err"
kill -CONT $frozen
within 'beta answers again' 10 up beta
# a host that is down: it has no ssh server
for pid in $(ip netns pids ${net}beta); do kill -9 $pid 2> /dev/null; done
begin=$(date +%s)
ask csparts search -l shared > "$fresh/got" 2> "$fresh/err"; expect 'a host that is down' 2 $?
took 'a host that is down' 6
that 'it is named' grep -q '^csparts: beta: cannot be reached' "$fresh/err"
expect 'the lines of the others' "$without_beta" "$(grep -c . "$fresh/got")"
ask csparts index 2> "$fresh/err"; expect 'an update with a host that is down' 2 $?
ask csparts status > "$fresh/status" 2> /dev/null; expect 'status with a host that is down' 2 $?
start beta
within 'beta answers again' 10 up beta
ask csparts search -l shared > "$fresh/got" 2> "$fresh/err"; expect 'it is searched again' 0 $?

# a full disk
mkdir "$fresh/gamma/srv/src/full"
awk -v to="$fresh/gamma/srv/src/full/" 'BEGIN {
    srand(1); letters = "abcdefghijklmnopqrstuvwxyzABCDEFGHIJKLMNOPQRSTUVWXYZ0123456789+/"
    for (f = 0; f < 60; f++) { for (i = 0; i < 250; i++) { s = ""; for (k = 0; k < 60; k++) s = s substr(letters, 1 + int(rand() * 64), 1); print s > (to f) } }
}'
repository "$fresh/alpha/srv/src/alpha-90" 90; rest
ask csparts index 2> "$fresh/err"; expect 'a full disk' 2 $?
that 'the part is named' grep -q '^csparts: gamma: part .*failed' "$fresh/err"
expect 'the others are updated' /srv/src/alpha-90/sub/b.txt "$(ask csparts search -l only90 2> /dev/null)"
that 'what the full host had is found' grep -q '/gamma-' <(ask csparts search -l shared 2> /dev/null)
ask csparts status > "$fresh/status" 2>&1; expect 'status says so' 2 $?
rm -r "$fresh/gamma/srv/src/full"; rest
ask csparts index 2> "$fresh/err"; expect 'the disk has room again' 0 $?

# an indexer is killed
at beta csparts search -l only1 > "$fresh/before"
: > "$fresh/beta/srv/slow-cindex"
echo 'late line' >> "$fresh/beta/srv/src/beta-12/a.c"; rest
beta_works() { comms beta | grep -q sleep; }
beta_rests() { ! comms beta | grep -q -E 'sleep|cindex|codesearch'; }
ask csparts index 2> "$fresh/err" & asked=$!
within 'beta indexes' 5 beta_works
kill_on beta sleep
wait $asked; expect 'a killed indexer' 2 $?
that 'it is named' grep -q 'beta: part .*killed by signal 9; its old index stands' "$fresh/err"
that 'status says so' grep -q failed <(at beta csparts status)
expect 'the old index is searched' "$(cat "$fresh/before")" "$(at beta csparts search -l only1)"
# csparts is killed on a host: its indexers end
ask csparts index 2> "$fresh/err" & asked=$!
within 'beta indexes' 5 beta_works
kill_on beta python3
wait $asked; expect 'csparts is killed on a host' 2 $?
that 'it is named' grep -q '^csparts: beta: ' "$fresh/err"
within 'its indexers end' 3 beta_rests
that 'status says so' grep -q failed <(at beta csparts status)
# two updates at once
: > "$fresh/beta/srv/parts/0001.index~"
ask csparts index 2> "$fresh/err" & asked=$!
within 'beta indexes' 5 beta_works
that 'what a killed process left is removed' [ ! -e "$fresh/beta/srv/parts/0001.index~" ]
ask csparts index 2> "$fresh/err2"; expect 'a second update' 2 $?
that 'it says why' grep -q 'beta: another process cuts or indexes these parts' "$fresh/err2"
that 'status says busy' grep -q busy <(at beta csparts status)
rm "$fresh/beta/srv/slow-cindex"
kill_on beta sleep
wait $asked
ask csparts index 2> "$fresh/err"; expect 'the next update' 0 $?
expect 'the late line is found' /srv/src/beta-12/a.c "$(ask csparts search -l 'late line')"

# more searches at once than one connection carries (sshd has MaxSessions 10)
for n in $(seq 15); do ask csparts search -c shared > "$fresh/many.$n" 2> "$fresh/err.$n" & eval "asked_$n=$!"; done
worst=0; for n in $(seq 15); do eval "wait \$asked_$n" || worst=$?; done
expect '15 searches at once' 0 $worst
expect '15 searches at once: lines' 1 "$(sort -u <(for n in $(seq 15); do cksum < "$fresh/many.$n"; done) | grep -c .)"

# the command ssh that csparts uses by itself, with connections that are kept
mkdir -p "$HOME/.ssh"; cp "$fresh/config" "$HOME/.ssh/config"; chmod 700 "$HOME" "$HOME/.ssh"; chmod 600 "$HOME/.ssh/config"
ip netns exec ${net}head unshare --mount sh -c 'mount --bind "$1/head" /root; mount --bind "$1/passwd" /etc/passwd; unset CSPARTS_SSH
    csparts search -c shared > "$1/got" && csparts search -c shared > "$1/again" && ls "$CSPARTS/ssh" | wc -l > "$1/sockets"' sh "$fresh"
expect 'the command ssh of csparts' 0 $?
that 'its lines' eval "cmp -s '$fresh/got' '$fresh/many.1' && cmp -s '$fresh/again' '$fresh/many.1'"
expect 'three connections are kept' 3 "$(cat "$fresh/sockets")"

# the asking machine has no room for what waits for its turn; -u needs none
for host in $hosts; do seq -f 'wide line %g' 30000 > "$fresh/$host/srv/src/$host-wide"; done; rest
ask csparts index; mkdir "$fresh/tmp"
ip netns exec ${net}head unshare --mount sh -c 'mount -t tmpfs -o size=300k tmpfs "$1/tmp"; export TMPDIR="$1/tmp"
    csparts search wide > "$1/got" 2> "$1/err"; echo $? > "$1/code"; csparts -u search wide 2> "$1/err2" | wc -l > "$1/lines"' sh "$fresh"
expect 'no room here' 2 "$(cat "$fresh/code")"
that 'it says why' grep -q '^csparts: GNU parallel failed' "$fresh/err"
expect 'no room here, -u' 90000 "$(echo $(cat "$fresh/lines"))"
for host in $hosts; do rm "$fresh/$host/srv/src/$host-wide"; done; rest; ask csparts index

# another way than ssh: a host is the number of a process in its namespaces
mkdir "$fresh/other"
for host in $hosts; do for pid in $(ip netns pids $net$host); do [ "$(cat /proc/$pid/comm 2> /dev/null)" != sshd ] || echo $pid; done | sort -n | head -n 1; done \
    > "$fresh/other/hosts"
CSPARTS=$fresh/other CSPARTS_SSH='nsenter -m -u -n -p -t' CSPARTS_COMMAND='env CSPARTS=/srv/parts csparts' csparts search -c shared > "$fresh/got"
expect 'another way than ssh' 0 $?
that 'another way than ssh: lines' cmp -s "$fresh/got" "$fresh/many.1"

# another engine: the words of a search in hexadecimal
if command -v clush > /dev/null; then
    ask clush -S -o "-F $fresh/config" -w alpha,beta,gamma csparts -R far search x2d63 x736861726564 > "$fresh/got" 2> "$fresh/err"
    expect 'clush' 0 $?
    that 'clush: lines' cmp -s <(sed 's/^[a-z]*: //' "$fresh/got" | sort) <(sort "$fresh/many.1")
else
    skipped 'clush: it is not installed'
fi
if command -v tcsh > /dev/null; then
    export CSPARTS_SSH="ssh -n -F $fresh/config"
    asks_each() { for pattern in "it's" '`touch /srv/hacked`' '"[$]HOME" [{]' '!' 'a\\b' '*'; do ask csparts search "$pattern"; echo $?; done; }
    asks_each > "$fresh/want" 2>&1
    sed "1s|:[^:]*\$|:$(command -v tcsh)|" "$fresh/passwd" > "$fresh/passwd.tcsh"
    cat "$fresh/passwd.tcsh" > "$fresh/passwd"
    expect 'the login shell is tcsh' tcsh "$(at alpha 'echo $shell:t')"
    asks_each > "$fresh/got" 2>&1
    that 'the same lines' cmp "$fresh/want" "$fresh/got"
else
    skipped 'tcsh as login shell: it is not installed'
fi

# Slurm runs each part as a job of an array.
. "$root/tests/shell/slurm.sh"
if [ -n "$why" ]; then
    skipped "Slurm: $why"
    summary
    exit
fi
export CSPARTS=$fresh/array SRV=$fresh/array-srv
mkdir -p "$CSPARTS" "$SRV"
csparts -m 400K cut "$tree" > "$fresh/due"
array() {
    batch sbatch --array="1-$(wc -l < "$fresh/due")" --output="$fresh/job.%a" "$@" \
        --wrap "exec csparts -j 1 index \"\$(sed -n \"\${SLURM_ARRAY_TASK_ID}p\" $fresh/due)\"" > "$fresh/err" 2>&1
}
array --wait; expect 'Slurm: an array of parts' 0 $?
csparts status > "$fresh/status"; expect 'Slurm: all are indexed' 0 $?
all; alike -c shared
for part in "$CSPARTS"/*.part; do echo 'by Slurm' >> "$(sed -n '1s/^[0-9]*\t//p' "$part")/a.c"; done; rest
csparts cut > "$fresh/due"
mkdir "$CSPARTS/0001.index~"
array --wait; expect 'Slurm: a part that fails' 2 $?
that 'it is named' grep -q '^csparts: part 0001: failed' "$fresh/job.1"
rmdir "$CSPARTS/0001.index~"
csparts cut > "$fresh/due"
: > "$SRV/slow-cindex"
array; expect 'Slurm: an array is started' 0 $?
batch_works() { comms slurm | grep -q -x sleep; }
batch_rests() { ! batch_works; }
within 'Slurm: its parts are indexed' 20 batch_works
batch scancel --user root
within 'Slurm: scancel ends the indexers' 10 batch_rests
rm "$SRV/slow-cindex"
index 0 'an update after that'
all; alike -l 'by Slurm'
summary
