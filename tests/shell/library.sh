# Shared by tests/shell/manual.sh and tests/shell/use.sh: sets `program` from their first argument, counts successes, and
# ends with a summary.

program=$(readlink -f -- "$1") || exit 2
root=$(readlink -f -- "$(dirname -- "$0")/../..") || exit 2
fresh=$(mktemp -d) || exit 2
trap 'rm -rf "$fresh"' EXIT
passed=0
failed=0
# A test that runs make does not take the variables of the make that runs it.
unset MAKEFLAGS MFLAGS MAKELEVEL

skipped() { printf 'skipped: %s\n' "$1"; }

# holds COMMAND: a command of the shell that has to succeed; otherwise its output is shown
holds() {
    if said=$(eval "$1" 2>&1 < /dev/null); then
        passed=$((passed + 1))
    else
        failed=$((failed + 1))
        printf 'FAILED: %s\n%s\n' "$1" "$said"
    fi
}

# gives STATUS COMMAND
gives() { holds "$2; came=\$?; echo \"status: wanted $1, came \$came\"; [ \$came = $1 ]"; }

# same FILE FILE: two files have the same bytes
same() { holds "diff '$fresh/$1' '$fresh/$2' | head -n 10; cmp -s '$fresh/$1' '$fresh/$2'"; }

# silent COMMAND: succeeds if the command prints nothing
silent() { holds "said=\$($1 2>&1); printf '%s' \"\$said\"; [ -z \"\$said\" ]"; }

# repository FOLDER..: makes what git takes for a repository
repository() {
    for kept do
        mkdir -p "$kept/.git/objects" "$kept/.git/refs" && echo 'ref: refs/heads/main' > "$kept/.git/HEAD" || exit 2
    done
}

# summary: the last line, and the status
summary() {
    printf '%d passed, %d failed\n' $passed $failed
    [ $failed -eq 0 ]
}

# needs COMMAND..: ends the tests, with the reason, if a command is not installed
needs() {
    for needed do
        command -v "$needed" > /dev/null && continue
        skipped "all of ${0##*/}: $needed is not installed"
        summary
        exit
    done
}
