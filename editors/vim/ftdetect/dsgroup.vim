" Files of scripts for dsgroup.
autocmd BufRead,BufNewFile *.script setfiletype dsgroup
