-- Opens the text that is named, and says what the editor shows: diagnostics, then the text after a format and a rename.
local function say(what, value)
  io.stdout:write(what, " ", vim.fn.json_encode(value), "\n")
end

local function text()
  return vim.api.nvim_buf_get_lines(0, 0, -1, false)
end

-- Waits until the buffer has this number of diagnostics.
local function wait_for(count)
  vim.wait(60000, function() return #vim.diagnostic.get(0) == count end, 20)
  return vim.diagnostic.get(0)
end

vim.cmd("edit " .. vim.fn.fnameescape(vim.env.TEXT))
say("filetype", vim.bo.filetype)
local found = wait_for(1)[1] or {}
say("shown", { found.code or vim.NIL, found.message, found.lnum, found.col })
vim.api.nvim_buf_set_lines(0, 3, 4, false, { "  x := 1;writeln(x)" })
say("count", #wait_for(0))
vim.cmd("SuperpascalFormat")
vim.wait(60000, function() return #text() == 6 end, 20)
say("formatted", text())
vim.api.nvim_win_set_cursor(0, { 2, 4 })
vim.cmd("SuperpascalRename total")
vim.wait(60000, function() return text()[2] ~= "var x: integer;" end, 20)
say("renamed", text())
vim.cmd("qall!")
