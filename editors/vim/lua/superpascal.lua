-- The language server in Neovim's own client (0.7 or newer). ftplugin/superpascal.vim starts it.
local server = {}
local client = nil

-- Formats the buffer.
local function format()
  if vim.lsp.buf.format then
    vim.lsp.buf.format()
  else
    vim.lsp.buf.formatting_sync()
  end
end

-- Has the server run the text on an empty input, and show what tools/explain says of the run.
local function execute(name)
  vim.lsp.buf.execute_command({ command = name, arguments = { vim.uri_from_bufnr(0) } })
end

local function add_commands(_, buffer)
  local function add(name, work, options)
    vim.api.nvim_buf_create_user_command(buffer, name, work, options or {})
  end
  vim.bo[buffer].omnifunc = "v:lua.vim.lsp.omnifunc"
  vim.keymap.set("n", "K", vim.lsp.buf.hover, { buffer = buffer })
  vim.keymap.set("n", "gd", vim.lsp.buf.definition, { buffer = buffer })
  add("SuperpascalFormat", format)
  add("SuperpascalRename", function(given)
    vim.lsp.buf.rename(given.args ~= "" and given.args or nil)
  end, { nargs = "?" })
  add("SuperpascalReferences", function() vim.lsp.buf.references() end)
  add("SuperpascalRun", function() execute("superpascal.run") end)
  add("SuperpascalWitness", function() execute("superpascal.witness") end)
end

-- Attaches the buffer to the server, which this command starts if it does not run.
function server.start(command)
  local config = { name = "superpascal", cmd = command, root_dir = vim.fn.getcwd(), on_attach = add_commands }
  if vim.lsp.start then
    vim.lsp.start(config)
    return
  end
  if client == nil or vim.lsp.client_is_stopped(client) then
    client = vim.lsp.start_client(config)
  end
  if client ~= nil then
    vim.lsp.buf_attach_client(0, client)
  end
end

return server
