#!/bin/sh
# Tests the library for C and Rust: C programs under ASan and UBSan, the example of docs/USE.md, and the Rust crate.
# usage: tests/shell/c_library.sh PROGRAM    LIBRARY is the folder of the library, if it is not out/lib
# RANDOM_PATTERNS is the number of random patterns and texts that the library and the program are both asked (now 1000), and
# RANDOM_SPANS that of the patterns whose matches are compared with brute force (now 20000).

. "$(dirname -- "$0")/library.sh"

needs cc
built=$(realpath -- "${LIBRARY:-$root/out/lib}")
if [ ! -f "$built/libcodesearch.a" ]; then
    skipped "all of ${0##*/}: there is no library (make lib builds it)"
    summary
    exit
fi
cd "$root" || exit 2

# compiles NAME FILE OPTION..: a C program with the archive
compiles() {
    name=$1 file=$2
    shift 2
    holds "cc -std=c11 -D_GNU_SOURCE -Wall -Wextra -Wpedantic -Werror -g -O1 $* -Iinclude -Itests/c '$file' '$built/libcodesearch.a' -o '$fresh/$name' -pthread"
}

checked='-fsanitize=address,undefined -fno-sanitize-recover=all'
printf 'int main(void) { return 0; }\n' > "$fresh/empty.c"
cc $checked "$fresh/empty.c" -o "$fresh/empty" 2> /dev/null && "$fresh/empty" || { skipped 'ASan and UBSan: the compiler has none'; checked=''; }
for test in rows threads random; do compiles $test tests/c/$test.c $checked; done
compiles allocations tests/c/allocations.c -Wl,--wrap=malloc,--wrap=calloc,--wrap=realloc,--wrap=free
holds "'$fresh/rows'"
holds "'$fresh/threads'"
holds "'$fresh/allocations'"
holds "'$fresh/random' '$program' '$fresh/text' ${RANDOM_PATTERNS:-1000}"

# ---- the shared object has the exports of the header, and nothing else -------------------------------------------------------
sed -n 's/^\(int32_t\|void\) *\(cs_[a-z0-9_]*\)(.*/\2/p' include/codesearch.h | sort > "$fresh/wanted"
nm -D --defined-only "$built/libcodesearch.so" | sed -n 's/.* T \([^@]*\).*/\1/p' | sort > "$fresh/came"
same came wanted
holds "cc -std=c11 -D_GNU_SOURCE -Iinclude -Itests/c tests/c/rows.c -L'$built' -lcodesearch -o '$fresh/shared' && LD_LIBRARY_PATH='$built' '$fresh/shared'"
if command -v c++ > /dev/null; then holds "c++ -x c++ -std=c++17 -Wall -Wextra -Werror -Iinclude -fsyntax-only include/codesearch.h"; fi

# ---- the example server -------------------------------------------------------------------------------------------------------
holds "[ \$(wc -l < examples/server.c) -le 150 ]"
compiles server examples/server.c $checked
mkdir -p "$fresh/src"
printf 'one\na marker here\n' > "$fresh/src/a.c"
printf 'marker\n\nmarkers' > "$fresh/src/b.c"
holds "CSEARCHINDEX='$fresh/index' '$program' cindex '$fresh/src'"
printf 'marker\nx(\n^$\n' | "$fresh/server" "$fresh/index" > "$fresh/came" 2>&1
cat > "$fresh/wanted" <<END
$fresh/src/a.c:2:a [marker] here
$fresh/src/b.c:1:[marker]
$fresh/src/b.c:3:[marker]s
3 lines
error: a group is not closed, at byte 1
$fresh/src/b.c:2:
1 lines
END
same came wanted

# ---- where in a line a match is ------------------------------------------------------------------------------------------------
if command -v python3 > /dev/null; then
    holds "tests/runs/spans.py '$built/libcodesearch.so' ${RANDOM_SPANS:-20000}"
else
    skipped 'random patterns beside brute force: python3 is not installed'
fi

# ---- the Rust crate -----------------------------------------------------------------------------------------------------------
if command -v cargo > /dev/null; then
    holds "cd bindings/rust && CARGO_TARGET_DIR='$fresh/target' CODESEARCH_LIB_DIR='$built' cargo test --offline -q"
else
    skipped 'the Rust crate: cargo is not installed'
fi
summary
