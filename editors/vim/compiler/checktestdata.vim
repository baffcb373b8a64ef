" Vim compiler: checks test data with the program that is edited, as :make secret/*.in
if exists('b:current_compiler')
  finish
endif
let b:current_compiler = 'checktestdata'

CompilerSet makeprg=ctd-show\ --gcc\ %:S
CompilerSet errorformat=%f:%l:%c:\ %trror:\ %m,%f:\ %trror:\ %m
