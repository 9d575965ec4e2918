" rem: moves the selected statements into a function of their own, in Vim and Neovim.
"
"   set runtimepath+=/path/to/editors/vim
"
" and then, on a visual selection, `:'<,'>RemExtract NAME`, or `:'<,'>RemExtract NAME ref` to pass by reference where both would do.
" The buffer becomes the changed file, with the cursor on the call; or a sentence says why there is none, with the cursor where it shows.
" `g:rem_program` is the program, `rem` if it isn't set.

if exists('g:loaded_rem')
  finish
endif
let g:loaded_rem = 1

let s:sentences = expand('<sfile>:p:h:h:h') . '/sentences.txt'

" what stands at the end of a line
function! s:ending() abort
  return &fileformat ==# 'dos' ? "\r\n" : &fileformat ==# 'mac' ? "\r" : "\n"
endfunction

" the bytes of the file
function! s:text() abort
  return join(getline(1, '$'), s:ending()) . (&endofline ? s:ending() : '')
endfunction

" the bytes in front of a column of a line; both are counted from 1, a column in bytes
function! s:place(line, column) abort
  let l:front = a:line > 1 ? join(getline(1, a:line - 1), s:ending()) . s:ending() : ''
  return strlen(l:front) + a:column - 1
endfunction

" where the selection begins and ends in the file
function! s:range(mode, first, last) abort
  if a:mode ==# 'v'
    let l:end = getpos("'>")
    let l:length = strlen(matchstr(strpart(getline(l:end[1]), l:end[2] - 1), '^.'))
    let l:begin = getpos("'<")
    return [s:place(l:begin[1], l:begin[2]), s:place(l:end[1], l:end[2] + l:length)]
  endif
  return [s:place(a:first, 1), s:place(a:last, strlen(getline(a:last)) + 1)]
endfunction

" the sentence for a line, by the longest that begins with its words, and the byte where it shows, or -1
function! s:said(line) abort
  let l:words = join(filter(split(a:line), 'v:val !~# "^[0-9]*$"')) . ' '
  let l:place = str2nr(matchstr(a:line, '\<[0-9]\+\>'))
  let l:found = ['', 0, a:line]
  for l:kept in map(readfile(s:sentences), 'split(v:val, "\t")')
    if stridx(l:words, l:kept[0] . ' ') == 0 && strlen(l:kept[0]) > strlen(l:found[0])
      let l:found = l:kept
    endif
  endfor
  return [l:found[2], l:found[1] > 0 ? l:place : -1]
endfunction

" puts the cursor on a byte of the file
function! s:go(place) abort
  let l:line = 1
  let l:left = a:place
  while l:line < line('$') && l:left >= strlen(getline(l:line)) + strlen(s:ending())
    let l:left -= strlen(getline(l:line)) + strlen(s:ending())
    let l:line += 1
  endwhile
  call cursor(l:line, l:left + 1)
endfunction

" says why there is no answer
function! s:refuse(line) abort
  let [l:sentence, l:place] = s:said(substitute(a:line, '^error: ', '', ''))
  if l:place >= 0
    call s:go(l:place)
    let l:sentence .= ' (line ' . line('.') . ', column ' . charcol('.') . ')'
  endif
  let g:rem_said = l:sentence
  echohl WarningMsg | echomsg 'rem: ' . l:sentence | echohl None
endfunction

" replaces the buffer's lines
function! s:replace(text) abort
  let l:lines = split(a:text, "\r\\?\n", 1)
  if l:lines[-1] ==# ''
    call remove(l:lines, -1)
  endif
  call setline(1, l:lines)
  if line('$') > len(l:lines)
    silent execute (len(l:lines) + 1) . ',$delete _'
  endif
endfunction

function! s:extract(mode, first, last, name, ...) abort
  let [l:start, l:end] = s:range(a:mode, a:first, a:last)
  let l:errors = tempname()
  let l:words = [get(g:, 'rem_program', 'rem'), 'extract', a:name, l:start, l:end] + a:000
  let l:text = system(join(map(copy(l:words), 'shellescape(v:val)')) . ' 2>' . shellescape(l:errors), s:text())
  let l:said = filereadable(l:errors) ? readfile(l:errors) : []
  call delete(l:errors)
  let g:rem_said = ''
  if v:shell_error != 0
    call s:refuse(get(l:said, 0, 'the program could not be run'))
    return
  endif
  call s:replace(l:text)
  call cursor(1, 1)
  call search('\V\<' . escape(a:name, '\') . '(', 'cW')
endfunction

command! -range -nargs=+ RemExtract call s:extract(visualmode(), <line1>, <line2>, <f-args>)
