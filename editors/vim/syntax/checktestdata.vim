" Vim syntax: programs of checktestdata
if exists('b:current_syntax')
  finish
endif
syntax case match

" A word is a row of capital letters, wherever it stands. Of two items that fit at one place the later one here counts.
syntax match ctdUnknownWord "\u\+"
syntax match ctdCommand "\u\@<!\%(SPACE\|NEWLINE\|EOF\|INT\|STRING\|REGEX\|ASSERT\|SET\|UNSET\)\u\@!"
syntax match ctdBlock "\u\@<!\%(REP\|REPI\|WHILE\|WHILEI\|END\)\u\@!"
syntax match ctdBranch "\u\@<!\%(IF\|ELSE\)\u\@!"
syntax match ctdFunction "\u\@<!\%(STRLEN\|MATCH\|ISEOF\|UNIQUE\|INARRAY\)\u\@!"

syntax match ctdName "\l[a-z0-9]*"
syntax match ctdNumber "\d\+"
" A leading zero, a fraction and an exponent are no part of this profile.
syntax match ctdWrongNumber "0\d\+\|\d\+[.eE][0-9eE.]*"
syntax match ctdOperator "[-+*/%^=!<>]\|&&\|||"

syntax match ctdEscape "\\\%(\o\{1,3}\|[ntrb\"\\]\|$\)" contained
syntax region ctdString start=+"+ skip=+\\.+ end=+"+ contains=ctdEscape
syntax keyword ctdTodo TODO FIXME XXX contained
syntax match ctdComment "#.*" contains=ctdTodo,@Spell

highlight default link ctdUnknownWord Error
highlight default link ctdCommand Statement
highlight default link ctdBlock Repeat
highlight default link ctdBranch Conditional
highlight default link ctdFunction Function
highlight default link ctdName Identifier
highlight default link ctdNumber Number
highlight default link ctdWrongNumber Error
highlight default link ctdOperator Operator
highlight default link ctdEscape SpecialChar
highlight default link ctdString String
highlight default link ctdTodo Todo
highlight default link ctdComment Comment

let b:current_syntax = 'checktestdata'
