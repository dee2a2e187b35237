autocmd BufRead,BufNewFile *.spb setfiletype spb
