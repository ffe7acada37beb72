" A file .sp is SuperPascal, and none of SPICE. A file .pas is where it has a word or a type that Pascal lacks.
autocmd BufRead,BufNewFile *.sp set filetype=superpascal
autocmd BufRead *.pas if search('\c^[^{'']*\<\(parallel\|forall\|assume\)\>\|=\s*\*\s*(', 'cnw')
      \ | set filetype=superpascal | endif
