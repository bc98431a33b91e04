-- A session of Neovim with the language server, for test_editors.py: it writes a line of JSON for each thing that it sees into the file OUT.
local root, file, out = vim.env.ROOT, vim.env.FILE, {}
local function say(what, value) table.insert(out, vim.fn.json_encode({what, value})) end
vim.opt.rtp:prepend(root .. "/editors/vim")
vim.cmd("filetype plugin on | syntax on | runtime! ftdetect/*.vim")
require("dcvalid").setup({cmd = {root .. "/ask", "serve"}})
vim.cmd("edit " .. file)
say("type", vim.bo.filetype)
say("colours", {vim.fn.synIDattr(vim.fn.synID(3, 1, 1), "name"), vim.fn.synIDattr(vim.fn.synID(1, 4, 1), "name")})
local function ask(kind, more)
  local params = vim.lsp.util.make_position_params()
  for name, value in pairs(more or {}) do params[name] = value end
  for _, answer in pairs(vim.lsp.buf_request_sync(0, "textDocument/" .. kind, params, 60000) or {}) do return answer.result end
end
vim.wait(60000, function() local found = vim.diagnostic.get(0); return #found > 0 and found[1].message:find("May stand") end, 20)
local found = vim.diagnostic.get(0)[1]
say("diagnostic", {found.lnum, found.col, found.end_col})
vim.api.nvim_win_set_cursor(0, {3, found.col})
local range = vim.lsp.util.make_range_params()
local fixes = ask("codeAction", {range = range.range, context = {diagnostics = {}}})
say("fix", fixes[1].title)
vim.lsp.util.apply_workspace_edit(fixes[1].edit, "utf-16")
say("fixed", vim.api.nvim_buf_get_lines(0, 2, 3, false)[1])
vim.wait(60000, function() return #vim.diagnostic.get(0) == 0 end, 20)
local lens
vim.wait(60000, function() lens = ask("codeLens"); return lens and lens[1] and lens[1].command.title:find("stuck") end, 50)
say("lens", lens[1].command.title)
vim.api.nvim_win_set_cursor(0, {3, 2})
say("hover", ask("hover").contents.value)
vim.api.nvim_win_set_cursor(0, {3, 8})
vim.lsp.util.apply_workspace_edit(ask("rename", {newName = "alarm"}), "utf-16")
say("renamed", vim.api.nvim_buf_get_lines(0, 1, 3, false))
vim.lsp.stop_client(vim.lsp.get_active_clients())
vim.fn.writefile(out, vim.env.OUT)
vim.cmd("qa!")
