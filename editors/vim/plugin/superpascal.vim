" Names the language server to the plugins vim-lsp and lsp (of yegappan). ALE finds it in ale_linters/, and Neovim
" starts it by ftplugin/.
if exists("g:loaded_superpascal")
  finish
endif
let g:loaded_superpascal = 1

function! s:register_lsp() abort
  if !empty(superpascal#server())
    call lsp#register_server({"name": "superpascal", "cmd": {_ -> superpascal#server()}, "allowlist": ["superpascal"]})
  endif
endfunction

function! s:register_yegappan() abort
  let command = superpascal#server()
  if !empty(command)
    call LspAddServer([{"name": "superpascal", "filetype": ["superpascal"], "path": command[0], "args": command[1:]}])
  endif
endfunction

augroup superpascal
  autocmd!
  autocmd User lsp_setup call s:register_lsp()
  autocmd User LspSetup call s:register_yegappan()
augroup END
