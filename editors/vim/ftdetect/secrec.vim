" (vim itself takes *.sc for Scala, so the type is set and not only proposed)
autocmd BufNewFile,BufRead *.sc set filetype=secrec
