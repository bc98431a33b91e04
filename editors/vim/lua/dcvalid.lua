-- The language server of dcvalid for Neovim 0.7 or later: require("dcvalid").setup({cmd = {"ask", "serve"}})
local M = {}
function M.setup(options)
  options = options or {}
  vim.api.nvim_create_autocmd("FileType", {
    pattern = "dcvalid",
    callback = function(event)
      M.client = M.client or vim.lsp.start_client({name = "dcvalid", cmd = options.cmd or {"ask", "serve"}, init_options = options.init_options})
      vim.lsp.buf_attach_client(event.buf, M.client)
      vim.api.nvim_create_autocmd({"BufEnter", "InsertLeave", "CursorHold"}, {buffer = event.buf, callback = function() vim.lsp.codelens.refresh() end})
    end,
  })
end
return M
