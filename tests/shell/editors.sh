#!/bin/sh
# Tries what is installed for editors and shells: :Cs of vim, M-x codesearch of emacs, and the completions of bash, zsh and fish, under
# a prefix of its own.
# usage: tests/shell/editors.sh PROGRAM

. "$(dirname -- "$0")/library.sh"

HOME=$fresh/home
prefix=$fresh/usr
PATH=$prefix/bin:$PATH
export HOME PATH fresh prefix
unset XDG_CACHE_HOME
mkdir -p "$HOME/src/.git" "$HOME/src/two  spaces"
PROGRAM=$program "$root/scripts/install.sh" "$prefix"
cd "$HOME/src" || exit 2
printf 'one\n  a marker, a marker\n' > a.c
printf 'marker\n' > 'two  spaces/b: 1.c'
printf 'MARKER|bar\n' > bar.c

if vim --version 2> /dev/null | grep -q '+quickfix'; then
    cat > "$fresh/jumps.vim" <<'END'
set nocompatible
exe 'set runtimepath^=' . $prefix . '/share/vim/vimfiles'
runtime plugin/codesearch.vim
Cs marker
call writefile(map(getqflist(), {_, one -> bufname(one.bufnr) . ':' . one.lnum . ':' . one.col . ':' . one.text}), $fresh . '/listed')
Cs -i 'marker\|bar' bar.c
call writefile(map(getqflist(), {_, one -> bufname(one.bufnr) . ':' . one.lnum}), $fresh . '/bars')
call writefile(getcompletion('Cs --', 'cmdline'), $fresh . '/options')
call writefile(getcompletion('Cs x two', 'cmdline'), $fresh . '/files')
Cs nowhere_at_all
call writefile([len(getqflist())], $fresh . '/none')
qall!
END
    gives 0 "timeout 20 vim -N -es -u NONE -i NONE -n -S '$fresh/jumps.vim'"
    printf 'a.c:2:5:  a marker, a marker\na.c:2:15:  a marker, a marker\n' > "$fresh/wanted"
    holds "grep '^a.c' '$fresh/listed' | diff '$fresh/wanted' -"
    printf 'bar.c:1\n' > "$fresh/wanted"
    same bars wanted
    holds "grep -qx -- --no-state '$fresh/options' && grep -q '^two' '$fresh/files' && [ \"\$(cat '$fresh/none')\" = 0 ]"
else
    skipped 'vim: it is not installed, or has no quickfix list'
fi

if command -v emacs > /dev/null; then
    cat > "$fresh/jumps.el" <<'END'
(add-to-list 'load-path (concat (getenv "prefix") "/share/emacs/site-lisp"))
(require 'codesearch)
(defun jump ()
  (while (process-live-p (get-buffer-process "*grep*")) (accept-process-output nil 0.05))
  (next-error)
  (with-current-buffer (window-buffer (selected-window))
    (append-to-file (format "%s:%d:%d\n" (file-name-nondirectory buffer-file-name) (line-number-at-pos) (current-column))
                    nil (expand-file-name "jumped" (getenv "fresh")))))
(codesearch "'a marker'")
(when (getenv "debug") (sleep-for 1) (princ (with-current-buffer "*grep*" (buffer-string))))
(jump)
(codesearch "-i 'marker\\|bar'")
(jump)
END
    gives 0 "timeout 60 emacs -Q --batch -l '$fresh/jumps.el'"
    printf 'a.c:2:2\nbar.c:1:0\n' > "$fresh/wanted"
    same jumped wanted
else
    skipped 'emacs: it is not installed'
fi

cat > "$fresh/complete.bash" <<'END'
. "$prefix/share/bash-completion/completions/cs"
try() { COMP_WORDS=("$@"); COMP_CWORD=$(($# - 1)); _codesearch "$1" "${!#}" "" && printf '%s\n' "${COMPREPLY[@]}"; }
try csearch -b
try codesearch ci
try cs marker --no-s
try codesearch cs --up
END
if command -v bash > /dev/null; then
    printf '%s\n' -brute cindex --no-state --update > "$fresh/wanted"
    holds "bash '$fresh/complete.bash' | diff '$fresh/wanted' -"
fi
if command -v zsh > /dev/null; then
    holds "zsh -f -c 'fpath=($prefix/share/zsh/site-functions \$fpath); autoload -Uz compinit; compinit -D -u; [[ \$_comps[cs] = _codesearch && \$_comps[csearch] = _codesearch && \$_comps[csparts] = _codesearch ]] && autoload +X _codesearch'"
else
    skipped 'zsh: it is not installed'
fi
if command -v fish > /dev/null; then
    holds "XDG_DATA_DIRS=$prefix/share:/usr/share fish -c 'complete -C \"cs --no-s\"' | grep -q -- --no-state"
    holds "XDG_DATA_DIRS=$prefix/share:/usr/share fish -c 'complete -C \"csparts sea\"' | grep -q '^search'"
    holds "XDG_DATA_DIRS=$prefix/share:/usr/share fish -c 'complete -C \"csparts search -br\"' | grep -q '^-brute'"
    holds "XDG_DATA_DIRS=$prefix/share:/usr/share fish -c 'complete -C \"csearch -b\"' | grep -q -- -brute"
else
    skipped 'fish: it is not installed'
fi
summary
