-- The language server in Neovim, 0.7 or later, for designs; not for bundles, which have a scenario too.
-- vim.g.pals_command has the words that start it; with an empty list none is started.
local command = vim.g.pals_command or { "pals", "language_server" }
local path = vim.api.nvim_buf_get_name(0)
if #command == 0 or not path:match("%.aadl$") then
  return
end
local settings = { name = "pals", cmd = command, root_dir = vim.fn.fnamemodify(path, ":p:h") }
if vim.lsp.start then
  vim.lsp.start(settings)
else
  vim.g.pals_client = vim.g.pals_client or vim.lsp.start_client(settings)
  vim.lsp.buf_attach_client(0, vim.g.pals_client)
end
vim.bo.omnifunc = "v:lua.vim.lsp.omnifunc"
vim.bo.commentstring = "-- %s"
