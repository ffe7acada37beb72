" Settings for a text in SuperPascal.
if exists("b:did_ftplugin")
  finish
endif
let b:did_ftplugin = 1

setlocal commentstring={%s}
setlocal expandtab shiftwidth=2 softtabstop=2
" % jumps between the words of a block where the plugin matchit is on.
let b:match_ignorecase = 1
let b:match_words = '\<\(begin\|case\|parallel\|record\)\>:\<end\>,\<repeat\>:\<until\>'
compiler superpascal

let b:undo_ftplugin = "setlocal commentstring< expandtab< shiftwidth< softtabstop<"
      \ . " | unlet! b:match_words b:match_ignorecase"

" Neovim has a client of its own for the language server.
if has("nvim-0.7") && !empty(superpascal#server())
  call luaeval("require('superpascal').start(_A)", superpascal#server())
endif
