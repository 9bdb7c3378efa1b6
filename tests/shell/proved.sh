#!/bin/sh
# What scripts/proved.sh, ./codesearch and scripts/install.sh say of a folder proved/: in a copy of the repository without git, with
# small C programs in the place of what is proved.
# usage: tests/shell/proved.sh PROGRAM

. "$(dirname -- "$0")/library.sh"

needs rt cc ar
if [ "$(cc -print-file-name=libc.a)" = libc.a ]; then
    skipped "all of ${0##*/}: there is no static C library"
    summary
    exit
fi
top=$fresh/top
objects=$top/crates/codesearch/out
mkdir -p "$top/out/lib"
(cd "$root" && tar -cf - --exclude=out --exclude=mutants crates crates.txt scripts codesearch VERSION Makefile include bin completion editors man) |
    tar -C "$top" -xf -
mkdir -p "$objects" "$top/crates/codesearch_c/out"

# object NAME SEARCH: an object file of a program that prints NAME. Called as cgrep it does SEARCH: `return 1` is no match
object() {
    printf '#include <stdio.h>\nint main(int n, char **words) { if (n > 1 && words[1][0] == 99) { %s; } puts("%s"); return 0; }\n' "$2" "$1" > "$fresh/$1.c"
    cc -O1 -fPIE -c "$fresh/$1.c" -o "$fresh/$1.o"
}
object one 'return 1'
object another 'return 1'
object newer '__builtin_trap()'
cp "$fresh/one.o" "$objects/codesearch.o"
cp "$fresh/one.o" "$objects/codesearch-v3.o"
ar rcD "$top/crates/codesearch_c/out/libcodesearch_c.a" "$fresh/one.o"
cp "$top/crates/codesearch_c/out/libcodesearch_c.a" "$top/out/lib/libcodesearch.a"
holds "'$top/scripts/proved.sh' make && '$top/scripts/proved.sh' check"
cp -r "$top/proved" "$fresh/proved"

# restored: the copy is as it was
restored() {
    rm -rf "$top/proved"
    cp -r "$fresh/proved" "$top/proved"
    holds "'$top/scripts/proved.sh' check"
}

# says STATUS TEXT [COMMAND]: the command, now the check of the gate, ends so, and says this
says() {
    holds "said=\$(cd '$top' && ${3:-scripts/proved.sh check} 2>&1); came=\$?; echo \"\$said\"; [ \$came = $1 ] && case \$said in *'$2'*) ;; *) false ;; esac"
}

# ---- where it fits ----------------------------------------------------------------------------------------------------------
says 0 one ./codesearch
says 0 "$top/proved/codesearch-v3" 'scripts/proved.sh program'
says 0 'program=proved/codesearch v3=proved/codesearch-v3' 'scripts/proved.sh where'
# Two links of an object give the same bytes, and no C library of the machine is in them.
holds "'$top/scripts/link.sh' '$fresh/one.o' '$fresh/linked' && cmp '$fresh/linked' '$top/proved/codesearch'"
holds "! readelf -d '$top/proved/codesearch' 2> /dev/null | grep -q NEEDED"
# What is built here comes first.
printf '#!/bin/sh\necho built\n' > "$objects/codesearch"
silent "'$top/scripts/proved.sh' where | grep program"
rm "$objects/codesearch"

# ---- on another machine -------------------------------------------------------------------------------------------------------
holds "'$top/scripts/link.sh' '$fresh/newer.o' '$fresh/none'"
put() { cp "$fresh/none" "$top/proved/$1" && sed -i "s/^file $1 .*/file $1 $(sha256sum < "$fresh/none" | cut -d' ' -f1)/" "$top/proved/SUMS"; }
put codesearch-v3
holds "[ \"\$('$top/scripts/proved.sh' program 2>&1)\" = '$top/proved/codesearch' ]"
holds "PROGRAM='$top/proved/codesearch' '$top/scripts/install.sh' '$fresh/there' && cmp '$fresh/there/bin/codesearch' '$top/proved/codesearch'"
put codesearch
for command in ./codesearch 'scripts/proved.sh where' "PROGRAM=proved/codesearch scripts/install.sh '$fresh/there'"; do
    says 2 'x86-64-v2' "$command"
done
restored
mkdir "$fresh/bin"
printf '#!/bin/sh\necho Linux aarch64\n' > "$fresh/bin/uname"
chmod +x "$fresh/bin/uname"
says 2 'for Linux on x86-64, and this is Linux aarch64' "PATH='$fresh/bin:$PATH' ./codesearch"

# ---- where it does not fit ----------------------------------------------------------------------------------------------------
echo '// more' >> "$top/crates/cs_match/src/lib.rt"
says 0 'these crates have changed: cs_match'
says 0 "of version $(cat "$root/VERSION"); since then these crates have changed: cs_match (make program" ./codesearch
silent "'$top/scripts/proved.sh' where | grep program"
# Without a toolchain nothing is built.
holds "mkdir '$fresh/tools' && for tool in sh make awk find sort uniq cut tr sed grep xargs sha256sum head cat date dirname uname mktemp rm git touch mkdir; do ln -s \"\$(command -v \$tool)\" '$fresh/tools/'; done"
says 2 'no Rattle toolchain' "PATH='$fresh/tools' make install PREFIX='$fresh/there'"
echo 9.9.9 > "$top/VERSION"
says 1 'and VERSION is 9.9.9: make proved'
cp "$root/VERSION" "$top/VERSION"
cp "$root/crates/cs_match/src/lib.rt" "$top/crates/cs_match/src/lib.rt"
says 0 ''
# A name counts as much as a text.
mv "$top/crates/cs_match/specs/Lib.antt" "$top/crates/cs_match/specs/Lab.antt"
says 0 'these crates have changed: cs_match'
mv "$top/crates/cs_match/specs/Lab.antt" "$top/crates/cs_match/specs/Lib.antt"

# ---- what is forgotten, or changed by hand --------------------------------------------------------------------------------------
# What the proof of the same sources gives is another program.
cp "$fresh/another.o" "$objects/codesearch.o"
says 1 'proved/ is not what the proof of these sources gives: make proved'
cp "$fresh/one.o" "$objects/codesearch.o"
# A program, and a program with its sum.
"$top/scripts/link.sh" "$fresh/another.o" "$top/proved/codesearch"
says 1 'not those of its SUMS: codesearch '
sed -i "s/^file codesearch .*/file codesearch $(sha256sum < "$top/proved/codesearch" | cut -d' ' -f1)/" "$top/proved/SUMS"
says 1 'proved/ is not what the proof of these sources gives: make proved'
restored
# A part of a file, of a folder, and none.
for file in codesearch libc/libc.a; do
    truncate -s 1000 "$top/proved/$file"
    for command in 'scripts/proved.sh check' ./codesearch 'scripts/proved.sh where'; do
        holds "said=\$(cd '$top' && $command 2>&1); came=\$?; echo \"\$said\"; [ \$came != 0 ] && case \$said in *'not those of its SUMS: $file '*) ;; *) false ;; esac"
    done
    restored
done
rm "$top/proved/libc/crt1.o"
says 1 'not those of its SUMS: libc/crt1.o '
restored
rm "$top/proved/SUMS"
says 1 'there is no proved/SUMS: make proved'
rm -r "$top/proved"
says 1 'there is no proved/SUMS: make proved'
restored

summary
