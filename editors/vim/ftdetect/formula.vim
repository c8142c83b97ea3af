" Vim takes *.score for a score file of slrn: a text that names formula, or a new one, is ours.
autocmd BufRead,BufNewFile *.score
      \ if search('^\s*formula\>', 'cnw') || line('$') == 1 && getline(1) ==# '' | set filetype=formula | endif
