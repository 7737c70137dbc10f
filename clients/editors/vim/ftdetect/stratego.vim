" Modules of stratbench.
autocmd BufRead,BufNewFile *.str setfiletype stratego
