autocmd BufRead,BufNewFile *.sk setfiletype sketch
