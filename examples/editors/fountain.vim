" Shows the sheet of the cursor's line beside a script, for Vim 8.2 or later (not for Neovim, whose jobs are others); put it into
" ~/.vim/plugin/. It needs fountain-sheet-at on the path, and for :make fountain-check-script.
"
"   :FountainSheet      opens the sheet beside the script, as each :write does; from then on it follows the cursor
"   :make               lists what is wrong with the script; :cnext goes from one to the next
"
" The sheets are those of the script as it was written last. Where it can't be read, what is wrong stands in their place.

if exists('g:loaded_fountain') || !exists('*job_start')
    finish
endif
let g:loaded_fountain = 1

let s:buffer = -1
let s:writes = 0
let s:place = []
let s:is_asking = 0

" What is shown: the sheet of a line of a file as it was written last.
function! s:place_here() abort
    return [expand('%:p'), string(line('.')), s:writes]
endfunction

function! s:window() abort
    return bufwinid(s:buffer)
endfunction

function! s:open() abort
    if s:window() < 0
        let l:script = win_getid()
        if bufexists(s:buffer)
            execute 'vertical botright sbuffer' s:buffer
        else
            vertical botright new
            let s:buffer = bufnr()
            silent file fountain\ sheet
            setlocal buftype=nofile bufhidden=wipe noswapfile nobuflisted
            " It doesn't stay open alone.
            autocmd BufEnter <buffer> if winnr('$') == 1 | quit | endif
        endif
        setlocal nonumber norelativenumber cursorline
        call win_gotoid(l:script)
    endif
    let s:writes += 1
    call s:ask()
endfunction

function! s:follow() abort
    if !&modified && s:window() >= 0 && s:place != s:place_here()
        call s:ask()
    endif
endfunction

" Asks for the sheet of the cursor's line, or leaves that to the end of what is asked already.
function! s:ask() abort
    let s:place = s:place_here()
    if !s:is_asking
        call s:begin()
    endif
endfunction

function! s:begin() abort
    let s:is_asking = 1
    let l:told = {'place': s:place, 'lines': []}
    let l:words = ['fountain-sheet-at', '--json'] + s:place[:1]
    call job_start(l:words, {
        \ 'in_io': 'null',
        \ 'callback': {_, line -> add(l:told.lines, line)},
        \ 'close_cb': {_ -> s:end(l:told)},
        \ })
endfunction

function! s:end(told) abort
    let s:is_asking = 0
    if s:place != a:told.place
        call s:begin()
    elseif s:window() >= 0
        call s:show(a:told.lines)
    endif
endfunction

" Shows the sheet that was told in one line, or what was told in its place.
function! s:show(lines) abort
    let l:is_sheet = get(a:lines, 0, '') =~# '^{'
    let l:sheet = l:is_sheet ? json_decode(a:lines[0]) : {'row': 0}
    let l:rows = l:is_sheet ? split(l:sheet.text, "\n", 1)[:-2] : a:lines
    call setwinvar(s:window(), '&wrap', !l:is_sheet)
    call setbufline(s:buffer, 1, l:rows)
    silent call deletebufline(s:buffer, len(l:rows) + 1, '$')
    " From the top, as far down as the row asks for.
    call win_execute(s:window(), printf('normal! gg%dG', l:sheet.row + 1))
endfunction

command! FountainSheet call s:open()
augroup fountain
    autocmd!
    autocmd BufNewFile,BufRead *.fountain setlocal makeprg=fountain-check-script\ %:S errorformat=%f:%l:\ %m
    autocmd BufWritePost *.fountain call s:open()
    autocmd BufEnter,CursorMoved,CursorMovedI *.fountain call s:follow()
augroup END
