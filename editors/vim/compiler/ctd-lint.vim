" Vim compiler: likely mistakes in the program that is edited, as :compiler ctd-lint and :make
if exists('b:current_compiler')
  finish
endif
let b:current_compiler = 'ctd-lint'

CompilerSet makeprg=ctd-lint\ %:S
CompilerSet errorformat=%f:%l:%c:\ %trror:\ %m,%f:%l:%c:\ %tarning:\ %m,%f:%l:%c:\ %tisk:\ %m,%f:%l:%c:\ %tote:\ %m,%f:\ %trror:\ %m
