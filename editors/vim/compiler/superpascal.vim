" :make looks for the first broken rule of the text, as it is written on the disk, and goes to its place.
" The program is the command superpascal, or what g:superpascal_program names.
if exists("current_compiler")
  finish
endif
let current_compiler = "superpascal"

let s:program = escape(shellescape(get(g:, "superpascal_program", "superpascal")), '%#!|')
" The program prints no name of a file, so it is printed before.
let &l:makeprg = "{ printf '\\%s: ' %:S; " . s:program . " check %:S; }"
CompilerSet errorformat=%f:\ %m\ %l:%c,%-G%.%#
