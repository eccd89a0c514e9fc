" Vim takes *.ig for Modula-3 of its own accord, so the type is set, not proposed.
autocmd BufNewFile,BufRead *.ig set filetype=iguana
