autocmd BufNewFile,BufRead *.chp setfiletype chp
autocmd BufNewFile,BufRead *.prs setfiletype prs
