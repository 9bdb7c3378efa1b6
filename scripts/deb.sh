#!/bin/sh
# Makes a Debian package of the built program. Two builds give the same bytes.
# usage: scripts/deb.sh FOLDER    the package is FOLDER/codesearch-verified_VERSION_amd64.deb

. "$(dirname -- "$0")/release.sh"
package=codesearch-verified
root=$fresh/root
umask 022
maintainer='The codesearch authors <codesearch@example.org>'

strip -o "$fresh/codesearch" crates/codesearch/out/codesearch
libdir=lib/x86_64-linux-gnu
PROGRAM=$fresh/codesearch LIBRARY=out/lib LIBDIR=$libdir DESTDIR=$root scripts/install.sh /usr
if [ -n "$newer" ]; then
    # /usr/bin/codesearch leads to one of both programs: postinst chooses.
    programs=usr/libexec/codesearch
    mkdir -p "$root/$programs" "$root/DEBIAN"
    mv "$root/usr/bin/codesearch" "$root/$programs/codesearch"
    strip -o "$root/$programs/codesearch-v3" crates/codesearch/out/codesearch-v3
    ln -s "../libexec/codesearch/codesearch" "$root/usr/bin/codesearch"
    cat > "$root/DEBIAN/postinst" <<'END'
#!/bin/sh
set -e
program=/usr/libexec/codesearch/codesearch-v3
status=0
$program cgrep x < /dev/null > /dev/null 2>&1 || status=$?
[ $status != 1 ] || ln -sf ../libexec/codesearch/codesearch-v3 /usr/bin/codesearch
END
    chmod 755 "$root/DEBIAN/postinst"
fi
# Debian's shells look for what packages bring in folders of their own.
mkdir -p "$root/usr/share/zsh/vendor-completions"
mv "$root/usr/share/zsh/site-functions/_codesearch" "$root/usr/share/zsh/vendor-completions"
rmdir "$root/usr/share/zsh/site-functions"
gzip -9n "$root"/usr/share/man/man?/*
mkdir -p "$root/etc/emacs/site-start.d"
cat > "$root/etc/emacs/site-start.d/50$package.el" <<'END'
;; Emacs loads codesearch.el at the first M-x codesearch.
(autoload 'codesearch "codesearch" "Search this project with cs." t)
END

doc=$root/usr/share/doc/$package
mkdir -p "$doc"
{
    cat <<END
Format: https://www.debian.org/doc/packaging-manuals/copyright-format/1.0/
Upstream-Name: codesearch

Files: *
Copyright: 2026 The codesearch authors
License: BSD-3-clause

License: BSD-3-clause
END
    sed '1,2d; s/^$/./; s/^ *\*/*/; s/^/ /' LICENSE
    printf '\nComment:\n'
    sed 's/^$/./; s/^/ /' NOTICE
} > "$doc/copyright"
printf '%s (%s) unstable; urgency=medium\n\n  * Version %s.\n\n -- %s  %s\n' $package "$version" "$version" "$maintainer" \
    "$(date -u -d "@$SOURCE_DATE_EPOCH" '+%a, %d %b %Y %H:%M:%S +0000')" | gzip -9n > "$doc/changelog.gz"
mkdir -p "$root/usr/share/lintian/overrides"
cat > "$root/usr/share/lintian/overrides/$package" <<END
# This package is built from its own repository, and closes no bug of Debian's list.
$package: initial-upload-closes-no-bugs *
# The library comes with the tools whose index it reads.
$package: package-name-doesnt-match-sonames *
$package: no-symbols-control-file *
$package: non-dev-pkg-with-shlib-symlink *
END

cp docs/USE.md "$doc/USE.md"
mkdir -p "$root/DEBIAN"
printf '/etc/emacs/site-start.d/50%s.el\n' $package > "$root/DEBIAN/conffiles"
if [ -f "$root/usr/$libdir/libcodesearch.a" ]; then
    printf 'libcodesearch %s %s (>= %s)\n' "${version%%.*}" $package "$version" > "$root/DEBIAN/shlibs"
    printf 'activate-noawait ldconfig\n' > "$root/DEBIAN/triggers"
    install -D -m 644 examples/server.c "$doc/examples/server.c"
fi
(cd "$root" && find usr -type f | sort | xargs md5sum) > "$root/DEBIAN/md5sums"
cat > "$root/DEBIAN/control" <<END
Package: $package
Version: $version
Section: devel
Priority: optional
Architecture: amd64
Maintainer: $maintainer
Installed-Size: $(du -sk --apparent-size "$root/usr" | cut -f1)
Depends: libc6 (>= 2.34)
Recommends: python3
Suggests: parallel, openssh-client
Conflicts: codesearch
Replaces: codesearch
Provides: codesearch
Description: search source trees by regular expressions through an index
 codesearch indexes trees of source files by their trigrams (cindex), and prints
 the lines that match a regular expression (csearch) while it opens only files
 that can match. cgrep searches files without an index, cs searches the current
 project as it is now, and csparts keeps several indexes on several machines.
 .
 It reads and writes the index format of Google's codesearch. That it loses no
 file and hides no line is proved down to the bytes.
END
find "$root" -exec touch -h -d "@$SOURCE_DATE_EPOCH" {} +
dpkg-deb --root-owner-group -Zxz --build "$root" "$out/${package}_${version}_amd64.deb" > /dev/null
printf '%s\n' "$out/${package}_${version}_amd64.deb"
