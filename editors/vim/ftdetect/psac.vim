autocmd BufNewFile,BufRead *.psac setfiletype psac
