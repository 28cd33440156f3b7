" Vim calls files *.x so by itself; some versions and plugins call them otherwise.
autocmd BufRead,BufNewFile *.x if &filetype !=# 'rpcgen' | set filetype=rpcgen | endif
