" Books are told by their name, and derivation texts by their first line, whatever their name.
autocmd BufRead,BufNewFile *.book,*.sketch setfiletype elements
autocmd BufRead,StdinReadPost * if getline(1) =~# '^derivation \d\+$' | set filetype=elementsderiv | endif
