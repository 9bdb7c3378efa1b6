#!/bin/sh
# Installs codesearch, or removes it: the program, the tools, csparts, the library, manual, completions, editor files.
# usage: install.sh [-u] PREFIX    PREFIX begins with /, as /usr/local
# DESTDIR, if set, is prepended to each path. PROGRAM and LIBRARY name a program and a folder of libraries other than those
# beside this script. LIBDIR is the folder of libraries under PREFIX, if it is not lib.

unset CDPATH
remove=''
[ "$1" != -u ] || { remove=1 && shift; }
prefix=${1%/}
case $1 in
    *[!A-Za-z0-9/._+-]* | [!/]* | '')
        printf 'install.sh: PREFIX has to begin with / and may have no space: %s\n' "$1" >&2
        exit 2
        ;;
esac
set -e
here=$(cd -- "$(dirname -- "$0")" && pwd)
[ -d "$here/man" ] || here=${here%/*}
to=$DESTDIR$prefix
bash=$to/share/bash-completion/completions
zsh=$to/share/zsh/site-functions
fish=$to/share/fish/vendor_completions.d
vim=$to/share/vim/vimfiles/plugin
emacs=$to/share/emacs/site-lisp
libdir=$prefix/${LIBDIR:-lib}
libs=$DESTDIR$libdir
tools='cindex csearch cgrep cs'

if [ -n "$remove" ]; then
    for name in codesearch csparts $tools; do rm -f "$to/bin/$name" "$bash/$name" "$fish/$name.fish"; done
    for page in "$here"/man/*.[157]; do rm -f "$to/share/man/man${page##*.}/${page##*/}"; done
    rm -f "$zsh/_codesearch" "$vim/codesearch.vim" "$emacs/codesearch.el"
    rm -f "$libs"/libcodesearch.a "$libs"/libcodesearch.so* "$libs/pkgconfig/codesearch.pc" "$to/include/codesearch.h"
    exit
fi

# put MODE FILE PATH: a copy of a file in place of what the path has, also if that is a link, or the file itself
put() {
    install -m "$1" "$2" "$3.new"
    rm -f "$3"
    mv "$3.new" "$3"
}

# runs PROGRAM: whether this processor runs it: a search without a match has status 1
runs() { ("$1" cgrep x < /dev/null > /dev/null 2>&1; [ $? = 1 ]) 2> /dev/null; }

# The program for newer processors (x86-64-v3), if it runs here. V3= leaves it out.
program=${PROGRAM:-$here/bin/codesearch}
if [ -n "${V3-1}" ] && [ -x "$program-v3" ] && [ ! "$program-v3" -ot "$program" ] && runs "$program-v3"; then
    program=$program-v3
elif ! runs "$program"; then
    echo 'install.sh: the program needs a processor of x86-64-v2 (with SSE4.2, SSSE3 and POPCNT), and does not run on this one' >&2
    exit 2
fi
install -d "$to/bin" "$bash" "$zsh" "$fish" "$vim" "$emacs"
put 755 "$program" "$to/bin/codesearch"
put 755 "$here/bin/csparts" "$to/bin/csparts"
# The program is the tool whose name it is run by.
for tool in $tools; do
    rm -f "$to/bin/$tool"
    ln -s codesearch "$to/bin/$tool"
done
for name in codesearch csparts $tools; do
    put 644 "$here/completion/codesearch.bash" "$bash/$name"
    put 644 "$here/completion/codesearch.fish" "$fish/$name.fish"
done
put 644 "$here/completion/_codesearch" "$zsh/_codesearch"
put 644 "$here/editors/codesearch.vim" "$vim/codesearch.vim"
put 644 "$here/editors/codesearch.el" "$emacs/codesearch.el"
for page in "$here"/man/*.[157]; do
    install -d "$to/share/man/man${page##*.}"
    put 644 "$page" "$to/share/man/man${page##*.}/${page##*/}"
done

# The library for C and Rust.
library=${LIBRARY:-$here/lib}
[ -f "$library/libcodesearch.a" ] || exit 0
version=$(cat "$here/VERSION")
install -d "$libs/pkgconfig" "$to/include"
put 644 "$here/include/codesearch.h" "$to/include/codesearch.h"
put 644 "$library/libcodesearch.a" "$libs/libcodesearch.a"
rm -f "$libs/libcodesearch.so.${version%%.*}" "$libs/libcodesearch.so" "$libs/pkgconfig/codesearch.pc"
# (a machine without a C compiler made no shared object)
if [ -f "$library/libcodesearch.so.$version" ]; then
    put 644 "$library/libcodesearch.so.$version" "$libs/libcodesearch.so.$version"
    ln -s "libcodesearch.so.$version" "$libs/libcodesearch.so.${version%%.*}"
    ln -s "libcodesearch.so.${version%%.*}" "$libs/libcodesearch.so"
fi
cat > "$libs/pkgconfig/codesearch.pc" <<END
prefix=$prefix
includedir=\${prefix}/include
libdir=$libdir

Name: codesearch
Description: search source trees by regular expressions through an index
Version: $version
Cflags: -I\${includedir}
Libs: -L\${libdir} -lcodesearch
END
chmod 644 "$libs/pkgconfig/codesearch.pc"
