autocmd BufNewFile,BufRead *.decl setfiletype decl
