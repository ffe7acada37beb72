" The language server in ALE.
if !empty(superpascal#server())
  call ale#linter#Define("superpascal", {
  \ "name": "superpascal",
  \ "lsp": "stdio",
  \ "executable": {_ -> superpascal#server()[0]},
  \ "command": {_ -> join(map(copy(superpascal#server()), "shellescape(v:val)"))},
  \ "project_root": {buffer -> fnamemodify(bufname(buffer), ":p:h")},
  \})
endif
