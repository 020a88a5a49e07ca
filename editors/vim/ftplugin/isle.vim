" ISLE: comments, and the indentation of Lisp
if exists('b:did_ftplugin')
  finish
endif
let b:did_ftplugin = 1

setlocal comments=:;;,:; commentstring=;\ %s
setlocal iskeyword=33-39,42-58,60-63,65-126,128-255
setlocal lisp autoindent expandtab shiftwidth=2
setlocal lispwords=rule,type,let,spec,switch,instantiate

let b:undo_ftplugin = 'setlocal comments< commentstring< iskeyword< lisp< autoindent< expandtab< shiftwidth< lispwords<'
