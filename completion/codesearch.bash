# Completion of codesearch, cindex, csearch, cgrep, cs and csparts in bash: the tool, options, and names of files.

_codesearch() {
    local tool=${1##*/} first=1 word=${COMP_WORDS[COMP_CWORD]} options at
    COMPREPLY=()
    if [[ $tool == codesearch ]]; then
        if ((COMP_CWORD == 1)); then
            mapfile -t COMPREPLY < <(compgen -W 'cindex csearch cgrep cs' -- "$word")
            return
        fi
        tool=${COMP_WORDS[1]}
        first=2
    fi
    case $tool in
        cindex) options='-list -logskip -reset' ;;
        csearch) options='-brute -c -f -h -i -l -n' ;;
        cgrep) options='-c -h -i -l -n' ;;
        cs)
            # its options may stand anywhere
            [[ $word == -* ]] || return
            mapfile -t COMPREPLY < <(compgen -W '-0 -A -B -C -F -H -L -N -S -T -a -c -d -e -g -h -i -l -m -n -o -q -s -t -u -v -w -x
                --color= --column --files --heading --help --hidden --no-state --no-update --type-list --update --version --vimgrep' -- "$word")
            return
            ;;
        csparts)
            for ((at = 1; at < COMP_CWORD; at++)); do
                case ${COMP_WORDS[at]} in
                    -[djmt]) ((at++)) ;;
                    -*) ;;
                    search) options='-brute -c -f -h -i -l -n' tool=csearch first=$((at + 1)) && break ;;
                    *) return ;;
                esac
            done
            if [[ $tool == csparts ]]; then
                if ((at == COMP_CWORD)); then
                    options='cut index search status place'
                    [[ $word != -* ]] || options='-d -g -j -m -t -u'
                    mapfile -t COMPREPLY < <(compgen -W "$options" -- "$word")
                fi
                return
            fi
            ;;
        *) return ;;
    esac
    # Options come first. What follows is a name of a file, which bash itself completes where nothing stands here.
    for ((at = first; at < COMP_CWORD; at++)); do
        case ${COMP_WORDS[at]} in
            -f) [[ $tool == csearch ]] && ((at++)) ;;
            -- | - | [!-]* | '') return ;;
        esac
    done
    if ((at == COMP_CWORD)) && [[ $word == -* ]]; then
        mapfile -t COMPREPLY < <(compgen -W "$options" -- "$word")
    fi
}

complete -o bashdefault -o default -F _codesearch codesearch cindex csearch cgrep cs csparts
