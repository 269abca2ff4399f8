" Files of contracts.
autocmd BufNewFile,BufRead *.nomos setfiletype nomos
