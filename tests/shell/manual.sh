#!/bin/sh
# Installs the program as a person does, in a fresh folder, and tests what is installed: the pages of man/, the examples in
# them, in docs/USE.md and in README.md, and the completion for bash.
# usage: tests/shell/manual.sh PROGRAM
# In an example a line that begins with '$ ' is a command, one with '> ' continues it, and the lines after it are its output.
# It runs in the home folder of a fresh tree, whose name is /home/ann. The last line is 'N passed, M failed'.

. "$(dirname -- "$0")/library.sh"

# ---- what is installed ----------------------------------------------------------------------------------------------
prefix=$fresh/usr
# The program is installed as it is, even if a source is newer.
managed() { make -s -C "$root" -o "$program" program="$program" DESTDIR="$2" PREFIX="$prefix" V3= "$1"; }
pages=$(cd "$root/man" && ls)
holds 'managed install'
for page in $pages; do
    holds "cmp '$root/man/$page' '$prefix/share/man/man${page##*.}/$page'"
done
for tool in codesearch cindex csearch cgrep cs csparts; do
    holds "[ -x '$prefix/bin/$tool' ] && [ -r '$prefix/share/bash-completion/completions/$tool' ]"
done

# ---- pages ------------------------------------------------------------------------------------------------------------
for page in $pages; do
    command -v mandoc > /dev/null && silent "mandoc -T lint -W warning '$root/man/$page' | grep -v 'outdated mandoc.db'"
    command -v groff > /dev/null && silent "groff -ww -mandoc -z '$root/man/$page'"
done
command -v mandoc > /dev/null || skipped 'the pages by mandoc: it is not installed'
command -v groff > /dev/null || skipped 'the pages by groff: it is not installed'
# Each option of a tool is in its page, in the synopsis and in the list.
options() { # options TOOL: those that its line in README.md has
    grep "^    $1 \\[" "$root/README.md" | grep -o '\[-[a-z]*' | cut -c3-
}
for tool in cindex csearch cgrep; do
    for option in $(options $tool); do
        holds "grep -q '^\\.Op Fl $option' '$root/man/$tool.1' && grep -q '^\\.It Fl $option' '$root/man/$tool.1'"
    done
done

# ---- examples -----------------------------------------------------------------------------------------------------------
# examples FILE: the lines of its examples as a reader sees them, an empty line after each example
examples() {
    case $1 in
        *.md) awk '/^```console$/ { on = 1; next } /^```$/ && on { on = 0; print "" } on' "$1" ;;
        *) awk '/^\.Bd -literal/ { on = 1; next } /^\.Ed/ { on = 0; print "" } on' "$1" |
            sed "s/\\\\(aq/'/g; s/\\\\(ha/^/g; s/\\\\(ti/~/g; s/\\\\(ga/\`/g; s/\\\\-/-/g; s/\\\\&//g; s/\\\\e/\\\\/g" ;;
    esac
}

# a tree in a fresh home folder
plant() {
    rm -rf "${fresh:?}/home"
    mkdir -p "$HOME/src/lib"
    printf '#include <stdio.h>\n\nint main(void) {\n    printf("Hello, world\\n");\n    return 0;\n}\n' > "$HOME/src/hello.c"
    {
        printf '/* Lists of words. */\nint list_length(struct list *list);\n'
        printf 'int list_empty(struct list *list) { return list_length(list) == 0; }\n'
    } > "$HOME/src/lib/list.c"
    printf 'TODO: write a test\nHello again\n' > "$HOME/src/notes.txt"
    printf '\211PNG\r\n\032\n\000\000' > "$HOME/src/logo.png"
}

# ran: compares the output of the last command with the example
ran() {
    [ -n "$command" ] || return
    eval "$command" > "$fresh/out" 2>&1 < /dev/null
    sed "s|$fresh||g" "$fresh/out" > "$fresh/came"
    if cmp -s "$fresh/came" "$fresh/wanted"; then
        passed=$((passed + 1))
    else
        failed=$((failed + 1))
        printf 'FAILED: %s of %s\n    wanted:\n%s\n    came:\n%s\n' "$command" "$page" "$(cat "$fresh/wanted")" "$(cat "$fresh/came")"
    fi
    command=
}

# follow FILE: runs its examples, one after another
follow() {
    plant
    cd "$HOME" || exit 2
    examples "$1" > "$fresh/examples"
    command=
    while IFS= read -r line <&3; do
        case $line in
            '$ '*) ran; command=${line#??}; : > "$fresh/wanted" ;;
            '> '*) command="$command
${line#??}" ;;
            '') ran ;;
            *) printf '%s\n' "$line" >> "$fresh/wanted" ;;
        esac
    done 3< "$fresh/examples"
    ran
}

HOME=$fresh/home/ann
PATH=$prefix/bin:$PATH
export HOME PATH
unset CSEARCHINDEX
for page in $pages; do
    follow "$root/man/$page"
done
for page in docs/USE.md README.md; do
    follow "$root/$page"
done
unset CSEARCHINDEX
cd "$root" || exit 2

# ---- completion ---------------------------------------------------------------------------------------------------------
# completed WORD..: what bash would complete the last word to
completed() {
    bash -c '. "$0"; COMP_WORDS=("$@"); COMP_CWORD=$(($# - 1)); _codesearch "$1"; echo "${COMPREPLY[*]}"' \
        "$prefix/share/bash-completion/completions/csearch" "$@"
}
# completes WANTED WORD..
completes() {
    wanted=$1
    shift
    came=$(completed "$@" 2>&1)
    holds "echo 'completion of $*: wanted $wanted, came $came'; [ '$came' = '$wanted' ]"
}
if command -v bash > /dev/null; then
    for tool in cindex csearch cgrep; do
        completes "$(options $tool | sed 's/^/-/' | paste -sd ' ')" $tool -
        completes "$(options $tool | sed 's/^/-/' | paste -sd ' ')" codesearch $tool -
    done
    completes 'csearch cs' codesearch cs
    completes '--heading --help --hidden' codesearch cs x --h
    completes '--no-state --no-update' cs --no
    completes '-brute' csearch -i -f '^/' -b
    completes '' csearch -f -b
    completes '' csearch word -b
    completes '' cindex -- -l
    completes '' cgrep word no
    completes 'cut index search status place' csparts -m 8G ''
    completes '-d -g -j -m -t -u' csparts -
    completes '-brute -c -f -h -i -l -n' csparts -u search -
    completes '' csparts search word -
    holds "bash -c '. \"\$0\"; complete -p cgrep' '$root/completion/codesearch.bash' | grep -q -- '-o default'"
else
    skipped 'completion: there is no bash'
fi

# ---- uninstalling ---------------------------------------------------------------------------------------------------------
holds 'managed uninstall'
silent "find '$prefix' -type f"
# pkg-config's file contains PREFIX, so it has to be an absolute path.
holds "! make -s -C '$root' -o '$program' program='$program' PREFIX=usr V3= install && [ ! -e '$root/usr' ]"
# A packager's folder: its content is to be moved to PREFIX.
holds "managed install '$fresh/stage' && [ ! -e '$prefix/bin/codesearch' ] && [ -x '$fresh/stage$prefix/bin/codesearch' ]"
holds "[ \"\$(readlink '$fresh/stage$prefix/bin/csearch')\" = codesearch ]"
holds "managed uninstall '$fresh/stage'"
silent "find '$fresh/stage' -type f"

summary
