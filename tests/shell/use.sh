#!/bin/sh
# Tries the examples of docs/USE.md in the real programs, if they are installed: vim, emacs, git and GNU parallel.
# usage: tests/shell/use.sh PROGRAM
# The settings, functions and commands are those of the page. The last line is 'N passed, M failed'.

. "$(dirname -- "$0")/library.sh"

# blocks LANGUAGE: the page's blocks of that language
blocks() { awk -v fence="^\`\`\`$1\$" '/^```$/ { on = 0 } on; $0 ~ fence { on = 1 }' "$root/docs/USE.md"; }

HOME=$fresh/home
fresh_bin=$fresh/bin
PATH=$fresh_bin:$PATH
export HOME PATH
unset CSEARCHINDEX
mkdir -p "$HOME/src/lib" "$HOME/src/c++ (old)" "$fresh_bin"
for tool in cindex csearch cgrep; do ln -s "$program" "$fresh_bin/$tool"; done
cd "$HOME" || exit 2
printf 'one\na marker here: 7:8\nthree\n' > src/a.c
printf '\n\n\tanother marker\nmarker: 12: 3\n' > src/lib/b.c
printf 'marker\n' > 'src/lib/two words.c'
printf 'first\nmarker\n' > src/lib/x:y.c
printf 'marker of old\n' > 'src/c++ (old)/o.c'
cindex src
csearch -n marker > "$fresh/lines"
holds "[ \$(wc -l < '$fresh/lines') = 6 ]"

# ---- the current folder -----------------------------------------------------------------------------------------------
blocks sh > "$fresh/functions"
. "$fresh/functions"
grep '/lib/' "$fresh/lines" > "$fresh/wanted"
holds "cd src/lib && csearch -f \"^\$PWD/\" -n marker | diff '$fresh/wanted' -"

# ---- editors ------------------------------------------------------------------------------------------------------------
export fresh
if vim --version 2>/dev/null | grep -q '+quickfix'; then
    blocks vim-index > "$fresh/settings.vim"
    cat > "$fresh/jumps.vim" <<'END'
Search marker
let jumps = []
for at in range(1, len(getqflist()))
    execute 'cc' at
    call add(jumps, expand('%:p') . ':' . line('.') . ':' . getline('.'))
endfor
call writefile(jumps, $fresh . '/jumps')
" A bar stands in quotes, as in a shell.
Search -i 'MARKER OF OLD|another marker'
call writefile([len(getqflist())], $fresh . '/bars')
qall!
END
    gives 0 "timeout 20 vim -N -es -u '$fresh/settings.vim' -i NONE -n -S '$fresh/jumps.vim'"
    same jumps lines
    holds "[ \"\$(cat '$fresh/bars')\" = 2 ]"
else
    skipped 'vim: it is not installed, or has no quickfix list'
fi
if command -v emacs > /dev/null; then
    blocks elisp-index > "$fresh/settings.el"
    cat > "$fresh/jumps.el" <<'END'
;; Without a terminal emacs takes the time in its last line for a place in a file, so the jumps are counted.
(setq enable-local-variables nil)
(defun jumps (buffer count file)
  (while (process-live-p (get-buffer-process buffer)) (accept-process-output nil 0.05))
  (while (accept-process-output nil 0.5))
  (let (found)
    (dotimes (_ count)
      (next-error)
      (with-current-buffer (window-buffer (selected-window))
        (push (format "%s:%d:%s\n" buffer-file-name (line-number-at-pos)
                      (buffer-substring (line-beginning-position) (line-end-position)))
              found)))
    (with-temp-file (expand-file-name file (getenv "fresh")) (apply #'insert (nreverse found)))))
(grep (concat grep-command "marker"))
(jumps "*grep*" 5 "grepped")
(compile "csearch -n -f 'src/(a|lib/b)' marker")
(jumps "*compilation*" 3 "compiled")
END
    gives 0 "timeout 60 emacs -Q --batch -l '$fresh/settings.el' -l '$fresh/jumps.el'"
    grep -v x:y "$fresh/lines" > "$fresh/wanted"
    same grepped wanted
    grep -E 'src/(a|lib/b)' "$fresh/lines" > "$fresh/wanted"
    same compiled wanted
else
    skipped 'emacs: it is not installed'
fi
# A name with odd bytes is printed as grep prints it.
odd="$HOME/odd/$(printf 'tab\there\033[1mbold\177 \303\251')"
mkdir odd
printf 'marker\n' > "$odd"
holds "CSEARCHINDEX=\$HOME/odd.index cindex odd && CSEARCHINDEX=\$HOME/odd.index csearch -n marker > '$fresh/odd'"
holds "grep -Hn marker \"\$odd\" | cmp - '$fresh/odd'"

# ---- what surprises -------------------------------------------------------------------------------------------------------
# a reader that stops early, the rights to an index, a repository whose folder begins with a dot, a removed path, unknown options
seq 100000 | sed 's/^/return /' > many.c
CSEARCHINDEX=$HOME/many.index cindex many.c
holds "[ \"\$(CSEARCHINDEX=\$HOME/many.index csearch return 2> '$fresh/errors' | head -n 1)\" = \"\$HOME/many.c:return 1\" ]"
holds "[ \"\$(cat '$fresh/errors')\" = 'csearch: output failed' ]"
chmod 640 many.index
holds "CSEARCHINDEX=\$HOME/many.index cindex && [ \$(stat -c %a many.index) = 600 ]"
mkdir -p .dotted && cp many.c .dotted
holds "CSEARCHINDEX=\$HOME/dotted.index cindex .dotted && [ \"\$(CSEARCHINDEX=\$HOME/dotted.index cindex -list)\" = \"\$HOME/.dotted\" ]"
gives 1 'CSEARCHINDEX=$HOME/dotted.index csearch return'
rm -r .dotted
holds "[ \"\$(CSEARCHINDEX=\$HOME/dotted.index cindex 2>&1; CSEARCHINDEX=\$HOME/dotted.index cindex -list)\" = \"\$HOME/.dotted\" ]"
gives 2 'csearch -in marker'
gives 2 'csearch --help'
holds "cindex -reset src many.c -logskip 2>&1 | grep -q -- '-logskip: no such file' && cindex -list | grep -q -- '-logskip'"
rm many.c && cindex -reset src

# ---- a cold disk ----------------------------------------------------------------------------------------------------------
blocks ahead > "$fresh/ahead"
holds "CSEARCHINDEX=\$HOME/ahead.index; export CSEARCHINDEX; . '$fresh/ahead'; wait; [ \$(csearch -n marker | wc -l) = 6 ]"

# ---- a hook ---------------------------------------------------------------------------------------------------------------
if command -v git > /dev/null; then
    git init -q project
    blocks hook > project/.git/hooks/post-commit
    chmod +x project/.git/hooks/post-commit
    echo committed > project/file
    gives 0 "cd project && git add file && git -c user.name=ann -c user.email=ann@localhost commit -q -m first"
    holds "[ \"\$(csearch -l committed)\" = '$HOME/project/file' ]"
else
    skipped 'a hook of git: it is not installed'
fi

# ---- the last good index
# ----------------------------------------------------------------------------------------------------
cindex -reset src/a.c src/lib
echo 'a new marker' >> src/lib/b.c
gives 0 refresh
holds "csearch -l 'new marker' && [ ! -e .csearchindex.next ]"
cp .csearchindex "$fresh/good"
mv src/lib src/away
gives 1 refresh
holds "cmp .csearchindex '$fresh/good' && grep 'cindex: $HOME/src/lib: no such file' .csearchindex.said"
mkdir src/lib
gives 1 refresh
holds "cmp .csearchindex '$fresh/good'"
rmdir src/lib
mv src/away src/lib
gives 0 refresh
holds "cmp .csearchindex '$fresh/good'"
gives 2 "CSEARCHINDEX=none refresh"

# ---- several indexes ----------------------------------------------------------------------------------------------------------
# Each has more lines than fit into a buffer, so that unsorted output would mix.
mkdir one two
for shard in one two; do
    awk -v shard=$shard 'BEGIN { for (i = 0; i < 9000; i++) print "int list_of_" shard "(int);", i, "{}" }' > $shard/many.c
done
echo 'only here' > two/rare
CSEARCHINDEX=$fresh/joined cindex one two
CSEARCHINDEX=$fresh/joined csearch -n 'list_[a-z]+' > "$fresh/wanted"
holds "[ \$(wc -l < '$fresh/wanted') = 18000 ]"
if [ ! -x /usr/bin/python3 ]; then
    skipped 'csparts: there is no /usr/bin/python3'
elif parallel --version 2>/dev/null | grep -q '^GNU parallel'; then
    mkdir remote .csparts
    printf '#!/bin/sh\n' > remote/ssh
    cat >> remote/ssh <<'END'
# Replaces ssh: the machine is this one, with the parts of its name, and the arguments after it are a command line.
while :; do
    case $1 in -[lop]) shift 2 ;; -*) shift ;; *) break ;; esac
done
export CSPARTS="$HOME/.parts-of-$1"
shift
exec sh -c "$*"
END
    chmod 755 remote/ssh
    ln -s "$root/bin/csparts" "$fresh_bin/csparts"
    holds "CSPARTS=.parts-of-alpha csparts cut one && CSPARTS=.parts-of-beta csparts cut two"
    blocks hosts > "$fresh/command"
    gives 0 "PATH=\$HOME/remote:\$PATH sh '$fresh/command' > '$fresh/shards'"
    same shards wanted
else
    skipped 'csparts over several machines: GNU parallel is not installed'
fi

# ---- a review server ------------------------------------------------------------------------------------------------------------
if python3 -c 'import http.server, sys; sys.exit(not hasattr(http.server, "CGIHTTPRequestHandler"))' 2> /dev/null; then
    mkdir -p served/cgi-bin
    blocks cgi | sed "s|/srv/search/index|$fresh/joined|; s|csearch -n|$fresh_bin/csearch -n|" > served/cgi-bin/search
    chmod 755 served served/cgi-bin served/cgi-bin/search
    cat > "$fresh/serve.py" <<'END'
import http.client, http.server, os, sys, threading
os.chdir(sys.argv[1])
class Silent(http.server.CGIHTTPRequestHandler):
    def log_message(self, *a): pass
# A server of root would run CGI programs as nobody, who may not see the program where it was built.
http.server.nobody_uid = os.getuid
server = http.server.ThreadingHTTPServer(("127.0.0.1", 0), Silent)
threading.Thread(target=server.serve_forever, daemon=True).start()
def ask(query):
    connection = http.client.HTTPConnection("127.0.0.1", server.server_address[1], timeout=30)
    connection.request("GET", "/cgi-bin/search?" + query)
    answer = connection.getresponse()
    return answer.status, answer.read().decode("utf-8", "replace")
home = sys.argv[2]
wrong = 0
def hold(query, test):
    global wrong
    status, text = ask(query)
    if status != 200 or not test(text):
        wrong += 1
        print(query, status, repr(text[:200]))
hold("only+here", lambda t: t == home + "/two/rare:1:only here\n")
hold("only%20here", lambda t: t == home + "/two/rare:1:only here\n")
hold("%6f%6Ely%5c+h%5bef%5dre", lambda t: t == home + "/two/rare:1:only here\n")
hold("list_", lambda t: t.count("\n") == 1000)
# nothing of these is run, and no option is taken
for query in ["$(touch%20hacked)", "`touch%20hacked`", ";touch%20hacked", "|touch%20hacked", "%0atouch%20hacked", "';touch%20hacked;'",
              '%22;touch%20hacked;%22', "-f%20x", "--", "-brute", "%00", "%", "%zz", "\\x41", "%5cx41", "a%25b", "&touch%20hacked",
              "%ff%fe", "%c3%28", "(", "a{1000}{1000}", "(((((((((((a*)*)*)*)*)*)*)*)*)*)*b", "x" * 6000, "%s%n%n", "$HOME", "*"]:
    hold(query, lambda t: "hacked" not in t.replace("touch hacked", "") and "No such" not in t)
    if os.path.exists("hacked") or os.path.exists("cgi-bin/hacked"):
        wrong += 1
        print("run:", query)
sys.exit(wrong)
END
    gives 0 "timeout 120 python3 '$fresh/serve.py' '$HOME/served' '$HOME'"
else
    skipped 'a review server: this python has no CGI server'
fi

summary
