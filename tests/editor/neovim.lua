-- What Neovim has of rpcls: opens t.x, types, asks, and prints what it has then; and what it has of cpp.x.

-- Before version 0.8 it is two calls.
vim.lsp.start = vim.lsp.start or function(config)
  vim.lsp.buf_attach_client(0, vim.lsp.start_client(config))
end

local function say(...) io.stdout:write(string.format(...), '\n') end

-- What is told of the buffer, once it is so much of this severity. Lines and columns are counted from 1,
-- columns in bytes.
local function tells(what, severity, wanted)
  local function told() return vim.diagnostic.get(0, { severity = severity }) end
  vim.wait(5000, function() return #told() == wanted end, 10)
  say('%d %s', #told(), what)
  for _, it in ipairs(told()) do
    say('  %d:%d-%d:%d %s', it.lnum + 1, it.col + 1, it.end_lnum + 1, it.end_col + 1, it.message)
  end
end

local function faults(wanted) tells('faults', vim.diagnostic.severity.ERROR, wanted) end

local function notes(wanted) tells('notes', vim.diagnostic.severity.INFO, wanted) end

local function hints(wanted) tells('hints', vim.diagnostic.severity.HINT, wanted) end

-- Carries keys out, and prints the line then.
local function type_keys(keys)
  vim.cmd('normal! ' .. keys)
  say('typed: %s', vim.fn.getline('.'))
end

-- Goes to a line and a column, and prints where a command leads.
local function leads(line, column, what, command)
  vim.api.nvim_win_set_cursor(0, { line, column - 1 })
  vim.fn.setqflist({})
  command()
  vim.wait(5000, function()
    local at = vim.api.nvim_win_get_cursor(0)
    return at[1] ~= line or at[2] ~= column - 1 or #vim.fn.getqflist() > 0
  end, 10)
  local at = vim.api.nvim_win_get_cursor(0)
  say('%s at %d:%d: the cursor is at %d:%d', what, line, column, at[1], at[2] + 1)
  for _, it in ipairs(vim.fn.getqflist()) do say('  %d:%d %s', it.lnum, it.col, it.text) end
  vim.cmd('cclose')
end

-- Prints what a command lists.
local function lists(what, command)
  vim.fn.setqflist({})
  vim.fn.setloclist(0, {})
  local function listed()
    local quick = vim.fn.getqflist()
    return #quick > 0 and quick or vim.fn.getloclist(0)
  end
  command()
  vim.wait(5000, function() return #listed() > 0 end, 10)
  say('%s: %d', what, #listed())
  for _, it in ipairs(listed()) do say('  %d %s', it.lnum, it.text) end
  vim.cmd('cclose | lclose')
end

-- Gives the name at a line and a column a new one, and prints the lines then.
local function renames(line, column, name)
  vim.api.nvim_win_set_cursor(0, { line, column - 1 })
  local before = vim.b.changedtick
  vim.lsp.buf.rename(name)
  vim.wait(5000, function() return vim.b.changedtick ~= before end, 10)
  say('renamed at %d:%d:', line, column)
  for _, it in ipairs(vim.fn.getline(1, '$')) do say('  %s', it) end
end

vim.cmd('edit t.x')
faults(1)
notes(1)
type_keys('1G0f{wcwint')
faults(0)
type_keys('3G0f[lrM')
faults(1)
type_keys('rN')
faults(0)
leads(3, 18, 'definition', vim.lsp.buf.definition)
leads(1, 21, 'references', vim.lsp.buf.references)
lists('symbols', vim.lsp.buf.document_symbol)
renames(3, 22, 'point')
faults(0)
vim.cmd('edit! cpp.x')
hints(1)
faults(0)
type_keys('5GI#')
faults(1)
hints(1)
type_keys('5G0x')
faults(0)
vim.lsp.stop_client(vim.lsp.get_active_clients())
local ended = vim.wait(5000, function() return #vim.lsp.get_active_clients() == 0 end, 10)
say('ended: %s', ended)
vim.cmd('qall!')
