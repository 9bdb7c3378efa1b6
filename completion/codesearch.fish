# Completion of codesearch, cindex, csearch, cgrep, cs and csparts in fish.

function __codesearch_options --argument-names command condition
    set -l common -c $command
    test -n "$condition"; and set common $common -n $condition
    switch $argv[3]
        case cindex
            complete $common -o list -d 'print the paths of the index'
            complete $common -o reset -d 'leave the old index aside'
            complete $common -o logskip -d 'name the files that are left out'
        case csearch
            complete $common -o brute -d 'search all indexed files'
            complete $common -o f -x -d 'search files whose names match'
            __codesearch_styles $common
        case cgrep
            __codesearch_styles $common
    end
end

function __codesearch_styles
    complete $argv -o c -d 'print the number of matching lines'
    complete $argv -o h -d 'print no names'
    complete $argv -o i -d 'letters match in either case'
    complete $argv -o l -d 'print names alone'
    complete $argv -o n -d 'print line numbers'
end

for tool in cindex csearch cgrep
    __codesearch_options $tool '' $tool
    __codesearch_options codesearch "__fish_seen_subcommand_from $tool" $tool
end
complete -c codesearch -n 'not __fish_seen_subcommand_from cindex csearch cgrep cs' -f -a 'cindex csearch cgrep cs'
function __codesearch_project
    for option in 'F/fixed-strings/a text, not a regular expression' 'i/ignore-case/letters match in either case' \
            'S/smart-case/so, unless a pattern has a capital letter' 's/case-sensitive/letters match as they are' \
            'w/word-regexp/whole words' 'x/line-regexp/whole lines' 'v/invert-match/lines that do not match' \
            'a/text/binary files too' 'c/count/print the number of matching lines' \
            'l/files-with-matches/print names alone' 'L/files-without-match/print names without a match' \
            'o/only-matching/print each match alone' 'q/silent/print nothing' 'n/line-number/print line numbers' \
            'N/no-line-number/print no line numbers' 'H/with-filename/print the name of a single file too' \
            'h/no-filename/print no names' '0/null/a NUL byte after each name' 'u/unrestricted/ignored files too'
        set -l parts (string split / -- $option)
        complete $argv -s $parts[1] -l $parts[2] -d $parts[3]
    end
    for option in 'e/regexp/pattern' 'm/max-count/at most N lines of each file' 'A/after-context/lines after each match' \
            'B/before-context/lines before each match' 'C/context/lines around each match' 'g/glob/files that match' \
            't/type/files of a type' 'T/type-not/no files of a type' 'd/max-depth/at most N names below the folder'
        set -l parts (string split / -- $option)
        complete $argv -s $parts[1] -l $parts[2] -x -d $parts[3]
    end
    for option in 'column/columns' 'vimgrep/a line for each match' 'heading/names above lines' 'hidden/hidden files too' \
            'files/print the names of files' 'type-list/print the types' 'update/only update the state' \
            'no-update/do not write the state' 'no-state/read every file' 'help/show the options' \
            'version/show the version'
        set -l parts (string split / -- $option)
        complete $argv -l $parts[1] -d $parts[2]
    end
    complete $argv -l color -x -a 'always never auto' -d colours
end
__codesearch_project -c cs
__codesearch_project -c codesearch -n '__fish_seen_subcommand_from cs'

set -l commands cut index search status place
complete -c csparts -n "not __fish_seen_subcommand_from $commands" -f -a "$commands"
complete -c csparts -n "not __fish_seen_subcommand_from $commands" -s d -x -a '(__fish_complete_directories)' -d 'the folder of the parts'
complete -c csparts -n "not __fish_seen_subcommand_from $commands" -s g -d 'git says which clones have changed'
complete -c csparts -n "not __fish_seen_subcommand_from $commands" -s j -x -d 'processes at once on a host'
complete -c csparts -n "not __fish_seen_subcommand_from $commands" -s m -x -d 'bytes of source that a part may hold'
complete -c csparts -n "not __fish_seen_subcommand_from $commands" -s t -x -d 'time limit in seconds'
complete -c csparts -n "not __fish_seen_subcommand_from $commands" -s u -d 'lines of hosts as they come'
__codesearch_options csparts '__fish_seen_subcommand_from search' csearch
