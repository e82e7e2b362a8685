autocmd BufRead,BufNewFile *.sect setfiletype sect
