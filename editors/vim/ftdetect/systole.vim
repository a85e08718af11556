" Systole sources end in .sys, which Vim takes for files of MS-DOS unless told.
autocmd BufNewFile,BufRead *.sys set filetype=systole
