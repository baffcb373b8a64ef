" Vim file type plugin: programs of checktestdata
if exists('b:did_ftplugin')
  finish
endif
let b:did_ftplugin = 1

setlocal comments=:# commentstring=#\ %s
let b:match_words = '\C\<\%(REPI\=\|WHILEI\=\|IF\)\>:\<ELSE\>:\<END\>'
let b:undo_ftplugin = 'setlocal comments< commentstring< makeprg< errorformat< | unlet! b:match_words b:current_compiler'
compiler checktestdata
