" :Cs searches this project with cs(1), and lists the matches in the quickfix window. The arguments are those of cs, as a shell reads
" them: :Cs -i 'one|two' lib. g:codesearch_command names another cs.
if exists('g:loaded_codesearch') || &compatible
    finish
endif
let g:loaded_codesearch = 1

let s:options = ['-F', '-S', '-T', '-d', '-e', '-g', '-i', '-m', '-t', '-u', '-w', '-x', '--no-state', '--fixed-strings', '--glob=',
    \ '--ignore-case', '--max-count=', '--max-depth=', '--smart-case', '--type=', '--type-not=', '--unrestricted', '--word-regexp']

" Options after a dash, else names of files.
function! s:Complete(lead, line, at) abort
    if a:lead =~# '^-'
        return filter(copy(s:options), 'v:val[: len(a:lead) - 1] ==# a:lead')
    endif
    return getcompletion(a:lead, 'file')
endfunction

function! s:Cs(arguments) abort
    let command = get(g:, 'codesearch_command', 'cs') . ' --color=never --no-update -H --vimgrep '
    let errors = tempname()
    let lines = systemlist(command . a:arguments . ' 2>' . shellescape(errors))
    let status = v:shell_error
    let messages = filereadable(errors) ? readfile(errors) : []
    call delete(errors)
    let format = &errorformat
    try
        let &errorformat = '%f:%l:%c:%m'
        cgetexpr lines
    finally
        let &errorformat = format
    endtry
    call setqflist([], 'a', {'title': 'cs ' . a:arguments})
    if !empty(messages)
        echohl WarningMsg | echomsg join(messages, ' ') | echohl None
    endif
    if status == 0
        cwindow
        silent! cfirst
    elseif status == 1
        cclose
        echomsg 'cs: no line matches'
    endif
endfunction

command! -nargs=+ -complete=customlist,s:Complete Cs call s:Cs(<q-args>)
