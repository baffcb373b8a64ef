" Vim indent: programs of checktestdata
if exists('b:did_indent')
  finish
endif
let b:did_indent = 1

setlocal indentexpr=CheckTestDataIndent(v:lnum) indentkeys=!^F,o,O,=END,=ELSE
let b:undo_indent = 'setlocal indentexpr< indentkeys<'

if exists('*CheckTestDataIndent')
  finish
endif

" A line without its strings and its comment.
function s:Code(number) abort
  return substitute(substitute(getline(a:number), '"\%([^"\\]\|\\.\)*"', '""', 'g'), '#.*', '', '')
endfunction

" How many commands a text leaves open; those that it closes first count apart, as one number of two.
function s:Counts(text) abort
  let [l:open, l:closed] = [0, 0]
  for l:word in split(a:text, '\U\+')
    if l:word =~# '^\%(REPI\=\|WHILEI\=\|IF\)$'
      let l:open += 1
    elseif l:word ==# 'END' && l:open > 0
      let l:open -= 1
    elseif l:word ==# 'END'
      let l:closed += 1
    endif
  endfor
  return [l:open, l:closed]
endfunction

" The indent of a line: that of the line before, one step more for each command that it leaves open, and one less for each that an END in
" this line closes. ELSE stands as its IF does.
function CheckTestDataIndent(number) abort
  let l:before = prevnonblank(a:number - 1)
  if l:before == 0
    return 0
  endif
  let l:code = s:Code(l:before)
  let [l:open, l:closed] = s:Counts(l:code)
  let l:leading = l:code =~# '^\s*END\U\|^\s*END$' ? 1 : 0
  let l:steps = l:open - l:closed + l:leading + (l:code =~# '^\s*ELSE\>' ? 1 : 0)
  if s:Code(a:number) =~# '^\s*\%(END\|ELSE\)\u\@!'
    let l:steps -= 1
  endif
  return indent(l:before) + l:steps * shiftwidth()
endfunction
