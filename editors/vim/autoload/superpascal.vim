" The command of the language server as a list: what g:superpascal_server names, else the installed one. Empty if there
" is none, or if g:superpascal_server is an empty string.
function! superpascal#server() abort
  let command = get(g:, "superpascal_server", exepath("superpascal-language-server"))
  return type(command) == v:t_list ? command : empty(command) ? [] : [expand(command)]
endfunction
