autocmd BufNewFile,BufRead *.gcl setfiletype gcl
