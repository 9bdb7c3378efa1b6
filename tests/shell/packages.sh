#!/bin/sh
# Builds the archive and the Debian package twice, looks at them, and installs, uses and removes them in a fresh Debian without
# the toolchain.
# usage: tests/shell/packages.sh PROGRAM

. "$(dirname -- "$0")/library.sh"

needs cc strip dpkg-deb pkg-config
if [ ! -f "$root/crates/codesearch/out/codesearch" ]; then
    skipped "all of ${0##*/}: packages are made from a program that is built here (make program)"
    summary
    exit
fi
SOURCE_DATE_EPOCH=1790000000
export SOURCE_DATE_EPOCH
version=$(cat "$root/VERSION")
archive=codesearch-$version-linux-x86_64
package=codesearch-verified_${version}_amd64.deb

# The gate may take the program from an earlier run, without the object file that the archive's program is linked from.
has_archive=
if [ -f "$root/crates/codesearch/out/codesearch.o" ]; then has_archive=1; else skipped 'the archive: no object file (make dist builds it)'; fi

if [ -n "$has_archive" ]; then
    holds "'$root/scripts/dist.sh' '$fresh/one' && '$root/scripts/dist.sh' '$fresh/two'"
    same "one/$archive.tar.gz" "two/$archive.tar.gz"
fi
holds "'$root/scripts/deb.sh' '$fresh/one' && '$root/scripts/deb.sh' '$fresh/two'"
same "one/$package" "two/$package"
if command -v lintian > /dev/null; then
    holds "said=\$(lintian -E --allow-root '$fresh/one/$package'); printf '%s\n' \"\$said\"; ! printf '%s\n' \"\$said\" | grep -q '^[EWIX]: '"
else
    skipped 'lintian is not installed'
fi
gives 2 "'$root/scripts/install.sh' usr"
gives 2 "'$root/scripts/install.sh' '/usr local'"

# ---- an installation over links, and over itself --------------------------------------------------------------------------------
# What links lead to, also to a folder, stays; a name of a folder that CDPATH has as well is that of the current one.
mkdir -p "$fresh/go/folder" "$fresh/library" "$fresh/linked/bin" "$fresh/linked/lib/pkgconfig"
echo another > "$fresh/go/file"
for name in "libcodesearch.a" "libcodesearch.so.$version"; do echo library > "$fresh/library/$name"; done
for name in bin/codesearch bin/cs bin/csparts bin/cindex bin/csearch lib/libcodesearch.a lib/pkgconfig/codesearch.pc; do
    ln -s "$fresh/go/file" "$fresh/linked/$name"
done
ln -s "$fresh/go/folder" "$fresh/linked/bin/cgrep"
ln -s "$fresh/go/folder" "$fresh/linked/lib/libcodesearch.so"
holds "cd '$root' && CDPATH=.:/ V3= PROGRAM='$program' LIBRARY='$fresh/library' scripts/install.sh '$fresh/linked'"
holds "[ \"\$(cat '$fresh/go/file')\" = another ] && [ -z \"\$(ls -A '$fresh/go/folder')\" ]"
holds "[ -z \"\$(find '$fresh/linked' -type l ! -name 'libcodesearch.so*' ! -lname codesearch)\" ]"
holds "printf 'a\nmarker\n' | '$fresh/linked/bin/cgrep' -n marker | grep -q ':2:marker'"
holds "[ \"\$(cat '$fresh/linked/lib/libcodesearch.so')\" = library ] && [ -s '$fresh/linked/lib/pkgconfig/codesearch.pc' ]"
holds "PROGRAM='$fresh/linked/bin/codesearch' '$root/scripts/install.sh' '$fresh/linked' && cmp '$program' '$fresh/linked/bin/codesearch'"
holds "'$root/scripts/install.sh' -u '$fresh/linked' && [ -z \"\$(find '$fresh/linked' ! -type d)\" ]"

# uses COMMAND: indexes, searches, and reads the index again, by the commands that COMMAND runs
uses() {
    $1 'mkdir -p /t/src && cd /t/src && printf "one\na marker\n" > a.c && export HOME=/t && cindex /t/src && csearch -n marker' > "$fresh/came" 2>&1
    printf '/t/src/a.c:2:a marker\n' > "$fresh/wanted"
    same came wanted
    $1 'export HOME=/t; cd /t && cgrep -c one src/a.c && echo another marker >> src/a.c && cindex && csearch -c marker && codesearch cindex -list' > "$fresh/came" 2>&1
    printf 'src/a.c: 1\n/t/src/a.c: 2\n/t/src\n' > "$fresh/wanted"
    same came wanted
    $1 'export HOME=/t; cd /t/src && cs -n another && rm -rf /t' > "$fresh/came" 2>&1
    printf 'a.c:3:another marker\n' > "$fresh/wanted"
    same came wanted
}

# uses_parts COMMAND: csparts, if Python is there or can be installed
uses_parts() {
    if ! $1 'command -v python3 || DEBIAN_FRONTEND=noninteractive apt-get install -y -qq --no-install-recommends python3' > "$fresh/said" 2>&1; then
        skipped "csparts in a fresh Debian: $(tail -n 1 "$fresh/said")"
        return
    fi
    $1 'mkdir -p /t/src && echo a marker > /t/src/a.c && export HOME=/t && csparts cut /t/src && csparts index && csparts search -n marker; rm -rf /t' > "$fresh/came" 2>&1
    printf '0001\n/t/src/a.c:1:a marker\n' > "$fresh/wanted"
    same came wanted
}

# ---- a folder of this machine -----------------------------------------------------------------------------------------------
mkdir -p "$fresh/unpacked/$archive"
if [ -n "$has_archive" ]; then
    tar -C "$fresh/unpacked" -xzf "$fresh/one/$archive.tar.gz"
    holds "[ \"\$(cd '$fresh/unpacked/$archive' && find . -type f | sort)\" = \"\$(cd '$fresh/unpacked/$archive' && find . -type f -readable | sort)\" ]"
    holds "'$fresh/unpacked/$archive/install.sh' '$fresh/usr'"
    holds "printf 'a\nmarker\n' | '$fresh/usr/bin/cgrep' -n marker | grep -q ':2:marker'"
    for page in "$fresh"/usr/share/man/man?/*; do holds "[ -s '$page' ]"; done
    if [ -f "$fresh/usr/lib/libcodesearch.a" ]; then
        holds "flags=\$(PKG_CONFIG_PATH='$fresh/usr/lib/pkgconfig' pkg-config --cflags --libs codesearch) && cc '$root/examples/server.c' \$flags -o '$fresh/server'"
        holds "LD_LIBRARY_PATH='$fresh/usr/lib' '$fresh/server' /dev/null; [ \$? = 2 ]"
    else
        skipped 'the library in the archive: it is not built (make lib builds it)'
    fi
    holds "'$fresh/unpacked/$archive/install.sh' -u '$fresh/usr' && [ -z \"\$(find '$fresh/usr' -type f)\" ]"
fi

# ---- a fresh Debian ---------------------------------------------------------------------------------------------------------
if [ "$(id -u)" != 0 ] || ! command -v debootstrap > /dev/null; then
    skipped 'no fresh Debian: debootstrap is not installed, or this is not root'
elif ! debootstrap --variant=minbase bookworm "$fresh/debian" http://deb.debian.org/debian > "$fresh/said" 2>&1; then
    skipped "no fresh Debian: $(tail -n 1 "$fresh/said")"
else
    in_debian() { chroot "$fresh/debian" /bin/sh -c "$1"; }
    cp -r "$fresh/unpacked/$archive" "$fresh/debian/root/$archive"
    cp "$fresh/one/$package" "$fresh/debian/root"
    holds "! in_debian 'command -v rt || command -v cc'"
    if [ -n "$has_archive" ]; then
        holds "in_debian 'cd /root/$archive && ./install.sh /usr/local'"
        uses in_debian
        uses_parts in_debian
        holds "in_debian 'cd /root/$archive && ./install.sh -u /usr/local && ! command -v cindex'"
    fi
    holds "in_debian 'dpkg -i /root/$package'"
    uses in_debian
    uses_parts in_debian
    holds "in_debian 'dpkg -r codesearch-verified && ! command -v cindex && ! command -v cs && ! command -v csparts'"
fi
summary
