autocmd BufNewFile,BufRead *.isle setfiletype isle
