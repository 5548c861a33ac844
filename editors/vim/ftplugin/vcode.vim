" Batches of VCODE: comments, words and indents.
if exists('b:did_ftplugin')
  finish
endif
let b:did_ftplugin = 1

setlocal commentstring={\ %s\ }
setlocal comments=
setlocal expandtab shiftwidth=2 softtabstop=2
" All visible characters are of words, but for parentheses and braces.
setlocal iskeyword=33-39,42-122,124,126
let b:undo_ftplugin = 'setlocal commentstring< comments< expandtab< shiftwidth< softtabstop< iskeyword<'
