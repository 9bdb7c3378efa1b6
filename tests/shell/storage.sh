# The index file in hard cases: rights, links, other file systems, a lack of descriptors. A part of end_to_end.sh, which
# defines `try`, `same` and `holds`; indexing.sh has the plain cases.

mkdir -p storage storage/tree
printf 'stored words\n' > storage/tree/f
CSEARCHINDEX=$home/storage/first "$program" cindex trees/a
first=$home/storage/first
index=$home/storage/index
refused="codesearch: cannot write $index\n"
export CSEARCHINDEX="$index"
# again: a fresh copy of the first index
again() { rm -f "$index" "$index~" && cp "$first" "$index"; }

# ---- rights -----------------------------------------------------------------------------------------------------------
# mode_is MODE: the mode of the index
mode_is() { [ "$(stat -c %a "$index")" = "$1" ]; }
# The owner keeps their rights; all others get those that everybody had, since an access list is not seen.
for modes in '600 600' '640 600' '644 644' '660 600' '664 644' '666 666' '604 600' '444 444' '440 400' '400 400' '755 755'; do
    again
    chmod "${modes% *}" "$index"
    try 0 '' '' "(umask 022; cindex storage/tree) # over mode ${modes% *}"
    holds "mode_is ${modes#* }"
done
# give_list FILE USER: an access list by which the user may read the file, and the group may not
give_list() {
    setfacl -m "u:$2:r" "$1" 2> /dev/null || python3 - "$1" "$2" 2> /dev/null << 'END'
import os, struct, sys
entry = lambda tag, rights, who=0xFFFFFFFF: struct.pack("<HHI", tag, rights, who)
entries = entry(1, 6) + entry(2, 4, int(sys.argv[2])) + entry(4, 0) + entry(16, 4) + entry(32, 0)
os.setxattr(sys.argv[1], "system.posix_acl_access", struct.pack("<I", 2) + entries)
END
}
again
chmod 600 "$index"
if give_list "$index" 1000 && mode_is 640; then
    try 0 '' '' "cindex storage/tree # over an access list"
    holds "mode_is 600"
else
    skipped 'an access list: neither setfacl nor python3 makes one here'
fi
# as_user COMMAND..: the command as user 1000 of the groups 1000 and 2000
as_user() { setpriv --reuid 1000 --regid 1000 --groups 2000 "$@"; }
if [ "$(id -u)" -eq 0 ] && as_user true 2> /dev/null; then
    chmod 711 "$home"
    chown 1000:1000 storage
    for modes in '640 600' '660 600' '664 644' '600 600'; do
        again
        chown 1000:2000 "$index"
        chmod "${modes% *}" "$index"
        try 0 '' '' "(umask 022; as_user \"\$program\" cindex storage/tree) # a group that is not the user's first"
        holds "mode_is ${modes#* } && [ \$(stat -c %u:%g \$index) = 1000:1000 ]"
    done
    # Root gives the index to its owner; so FILE~ of a killed run may belong to that owner.
    again
    chown 1000:2000 "$index"
    printf 'csearch in' > "$index~"
    chown 1000:2000 "$index~"
    try 0 '' '' "cindex storage/tree # after a killed run of root"
    holds "[ \$(stat -c %u:%g \$index) = 1000:2000 ] && [ ! -e \$index~ ]"
    chown 0:0 storage
    # A file at FILE~ of neither this user nor the owner of FILE stays, and the line says so.
    again
    chown 1000:1000 storage
    printf 'left\n' > "$index~"
    chown 12345:12345 "$index~"
    foreign="codesearch: cannot write $index: remove $index~\n"
    for rights in 600 666; do
        chmod $rights "$index~"
        try 2 '' "$foreign" "as_user \"\$program\" cindex storage/tree storage/none # over another user's FILE~ of mode $rights"
        holds "cmp -s \$index \$first && [ \"\$(cat \$index~)\" = left ]"
    done
    chown 0:0 storage
    # Another user's index, in a folder that this user may not write.
    again
    chmod 644 "$index"
    try 2 '' "$refused" "as_user \"\$program\" cindex storage/tree storage/none"
    holds "cmp -s \$index \$first && [ ! -e \$index~ ]"
else
    skipped 'an index of another group: this user is not root, or there is no setpriv'
fi

# ---- files at FILE~ -----------------------------------------------------------------------------------------------------
# What a killed run may have left is taken away: the first bytes of an index, nothing, or zeros.
for left in '' 'csearch in' 'csearch index 1\n/a/file\0' '\0\0\0\0' '\0\0\0\0\0\0\0\0\0\0\0\0\0\0\0\0\0\0\0\0'; do
    again
    printf "$left" > "$index~"
    try 0 '' '' "cindex storage/tree # over $left"
    holds "[ ! -e \$index~ ] && ! cmp -s \$index \$first"
done
# Anything else is somebody's file, such as the copy that an editor keeps.
for left in 'notes of today\n' 'c search' 'csearch index 2\n' '\0\0\0\0n'; do
    again
    printf "$left" > "$index~"
    for command in 'cindex storage/tree storage/none' 'cindex -reset'; do
        try 2 '' "codesearch: cannot write $index: remove $index~\n" "$command # over $left"
        holds "cmp -s \$index \$first && printf '$left' | cmp -s - \$index~"
    done
done

# ---- what is reported before the walk -----------------------------------------------------------------------------------
# The walk would print a line for the missing path.
try 2 '' "codesearch: cannot write $home/none/index\n" "CSEARCHINDEX=\$home/none/index cindex storage/none"
try 2 '' 'cindex: unknown option -x\n' "CSEARCHINDEX=\$home/none/index cindex -x"
again
for path in '' storage/tree storage/none; do
    cindex "$path" < /dev/null > /dev/null 2>&1
    holds "[ ! -e \$index~ ]"
done
again
if command -v flock > /dev/null; then
    try 2 '' "$refused" "flock \$index~ \"\$program\" cindex storage/none"
    try 2 '' "$refused" "flock \$index~ \"\$program\" cindex -reset"
    try 0 "$home/trees/a\n" '' "flock \$index~ \"\$program\" cindex -list"
    holds "cmp -s \$index \$first"
else
    skipped 'a second run: there is no flock'
fi

# ---- links ------------------------------------------------------------------------------------------------------------
# What a link leads to is read, and replaced beside it.
mkdir -p storage/there
again
mv "$index" storage/there/file
ln -s there/file storage/near
ln -s "$home/storage/near" storage/far
for link in near far; do
    try 0 "$home/trees/a\n" '' "CSEARCHINDEX=\$home/storage/$link cindex -list"
done
try 0 '' '' "CSEARCHINDEX=\$home/storage/far cindex storage/tree"
holds "[ -h storage/far ] && [ -h storage/near ] && [ ! -h storage/there/file ] && [ ! -e storage/far~ ] && [ ! -e storage/there/file~ ]"
try 0 "$home/storage/tree/f:stored words\n" '' "CSEARCHINDEX=\$home/storage/there/file csearch stored"
try 0 '' '' "cd storage/there && CSEARCHINDEX=../near cindex -reset; cd ../.."
holds "[ -h storage/near ] && [ ! -e storage/there/file ]"
try 0 '' '' "CSEARCHINDEX=\$home/storage/near cindex storage/tree # a link to no file"
holds "[ -h storage/near ] && [ -f storage/there/file ]"
ln -s circle storage/circle
try 2 '' "codesearch: cannot read $home/storage/circle\n" "CSEARCHINDEX=\$home/storage/circle cindex storage/tree"
# Links of the system are refused; the output of each case is a regular file.
for link in /dev/stdout /dev/fd/1 /proc/self/fd/1; do
    [ -h $link ] || continue
    for command in 'cindex -reset' 'cindex storage/tree' 'csearch x'; do
        try 2 '' "codesearch: cannot read $link\n" "CSEARCHINDEX=$link \"\$program\" $command"
        holds "[ -h $link ] && [ ! -e $link~ ]"
    done
done

# ---- nothing waits for ever ---------------------------------------------------------------------------------------------
# A file of length 0 reads as empty. The kernel's messages are such a file, and wait for the next message.
if head -c 0 /proc/kmsg 2> /dev/null; then
    try 0 '' '' "CSEARCHINDEX=\$home/storage/proc timeout 20 \"\$program\" cindex -reset /proc/kmsg"
    rm storage/proc
    # One descriptor more than the new index needs: no second file is opened in place of it.
    try 0 '' '' "(ulimit -n 5; CSEARCHINDEX=\$home/storage/proc timeout 20 \"\$program\" cindex /proc/kmsg)"
    try 0 '/proc/kmsg\n' '' "CSEARCHINDEX=\$home/storage/proc cindex -list"
else
    skipped 'the messages of the kernel: this user may not read them'
fi

# ---- descriptors ------------------------------------------------------------------------------------------------------
# A lack of descriptors refuses the run, and empties no tree. The tools have no line of their own for it.
again
try 2 '' 'codesearch: too many open files\n' "(ulimit -n 4; cindex storage/tree)"
holds "cmp -s \$index \$first && [ ! -e \$index~ ]"
for number in 4 5 6 7 8 9 10; do
    again
    (ulimit -n $number; "$program" cindex) 2> results/said
    case $? in
        0) holds "cmp -s \$index \$first && [ ! -s results/said ] # with $number descriptors" ;;
        *) holds "cmp -s \$index \$first && ! grep -vx \"codesearch: too many open files\\|cindex: out of memory\" results/said # with $number descriptors" ;;
    esac
done

# ---- calls that fail ----------------------------------------------------------------------------------------------------
if strace -qq -o /dev/null true 2> /dev/null; then
    # A mode that is right is not set.
    again
    chmod 644 "$index"
    try 0 '' '' "(umask 022; strace -qq -o /dev/null -e inject=fchmod:error=EPERM \"\$program\" cindex storage/tree)"
    # The index file is not opened for lack of a descriptor, of the process or of the system.
    again
    for error in EMFILE ENFILE; do
        for command in 'cindex -list' 'cindex -x' 'csearch x'; do
            try 2 '' 'codesearch: too many open files\n' "strace -qq -o /dev/null -P \$index -e inject=open,openat:error=$error \"\$program\" $command"
        done
    done
    # A file that is gone needs no removal.
    again
    try 0 '' '' "strace -qq -o /dev/null -e inject=unlink:error=ENOENT:when=1 \"\$program\" cindex -reset"
    again
    try 2 '' "$refused" "strace -qq -o /dev/null -e inject=unlink:error=EIO:when=1 \"\$program\" cindex -reset"
    holds "cmp -s \$index \$first"
else
    skipped 'calls that fail: there is no strace'
fi

# ---- other file systems -------------------------------------------------------------------------------------------------
# twice: a first index and a refresh in storage/other
twice() {
    CSEARCHINDEX=$home/storage/other/index
    try 0 '' '' "(umask 022; cindex -reset storage/tree) # $1"
    try 0 '' '' "(umask 022; cindex storage/tree trees/a) # $1"
    try 0 "$home/storage/tree/f:stored words\n" '' "csearch stored # $1"
    holds "[ ! -e storage/other/index~ ]"
    CSEARCHINDEX=$index
}
mkdir -p storage/other storage/under
if command -v bindfs > /dev/null && bindfs --chmod-deny storage/under storage/other 2> /dev/null; then
    twice 'a file system that refuses chmod'
    umount storage/other
    bindfs --force-user=12345 storage/under storage/other
    printf 'csearch in' > storage/other/index~
    twice 'a file system that maps owners'
    # There a first job that was killed leaves a FILE~ that nothing shows to be ours: the line says to remove it.
    rm storage/other/index
    printf 'csearch in' > storage/other/index~
    other=$home/storage/other/index
    for command in 'cindex storage/tree' 'cindex -reset'; do
        try 2 '' "codesearch: cannot write $other: remove $other~\n" "CSEARCHINDEX=\$other $command # after a first job that was killed"
    done
    holds "[ \"\$(cat \$other~)\" = 'csearch in' ] && [ ! -e \$other ] && rm \$other~"
    twice 'a file system that maps owners, without the file'
    umount storage/other
else
    skipped 'file systems that refuse chmod or map owners: there is no bindfs, or this user may not mount'
fi
if command -v mkfs.vfat > /dev/null && truncate -s 8M storage/disk && mkfs.vfat storage/disk > /dev/null 2>&1 &&
    mount -o loop storage/disk storage/other 2> /dev/null; then
    twice 'a file system without owners and modes'
    umount storage/other
else
    skipped 'a file system without owners and modes: there is no mkfs.vfat, or this user may not mount'
fi
export CSEARCHINDEX="$home/index"
