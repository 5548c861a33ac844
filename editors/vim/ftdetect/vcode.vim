" Batches of VCODE.
autocmd BufNewFile,BufRead *.vcode setfiletype vcode
