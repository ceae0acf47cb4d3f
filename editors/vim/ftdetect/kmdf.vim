autocmd BufRead,BufNewFile *.kmdf,*.scn setfiletype kmdf
