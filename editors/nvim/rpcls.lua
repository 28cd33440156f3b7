-- Has rpcls serve files of the Sun RPC language (*.x). Copy this file to ~/.config/nvim/plugin/; it is for
-- Neovim from version 0.7 on.

local config = {
  name = 'rpcls',
  -- If rpcls is not on the PATH, its whole path. `rpcls --help` lists the other options.
  cmd = { 'rpcls', '--c-types' },
  -- The settings that docs/EDITORS.md lists, as `foreign = true`.
  init_options = vim.empty_dict(),
}

-- Before version 0.8 there is no vim.lsp.start: one server for all buffers, as that has it.
local client
local function start()
  if vim.lsp.start then return vim.lsp.start(config) end
  if not (client and vim.lsp.get_client_by_id(client)) then client = vim.lsp.start_client(config) end
  if client then vim.lsp.buf_attach_client(0, client) end
end

-- Neovim calls files *.x so by itself; some versions and plugins call them otherwise.
vim.api.nvim_create_autocmd({ 'BufRead', 'BufNewFile' }, {
  pattern = '*.x',
  callback = function()
    if vim.bo.filetype ~= 'rpcgen' then vim.bo.filetype = 'rpcgen' end
  end,
})

if vim.lsp.config and vim.lsp.enable then
  vim.lsp.config('rpcls', { cmd = config.cmd, init_options = config.init_options, filetypes = { 'rpcgen' } })
  vim.lsp.enable('rpcls')
else
  vim.api.nvim_create_autocmd('FileType', { pattern = 'rpcgen', callback = start })
end
