-- Neovim's client of XDuce's language server, from Neovim 0.7 on.
--
--   vim.g.xduce_server     the server, as a list of words; false where none is wanted
--   vim.g.xduce_settings   its settings, a table
--   vim.g.no_xduce_maps    set where no keys are wanted, as is vim.g.no_plugin_maps

local M = {}

-- The clients that run, by their folders. (Only Neovim from 0.8 on does this by itself.)
local clients = {}

-- The keys that Neovim has for every server from 0.11 on.
local KEYS = {
  { 'n', 'K', 'hover' },
  { 'n', 'grn', 'rename' },
  { 'n', 'gra', 'code_action' },
  { 'n', 'grr', 'references' },
  { 'n', 'gO', 'document_symbol' },
  { 'i', '<C-S>', 'signature_help' },
}

--- The words that start the server: those that are set, those of the repository that this file
--- belongs to, or those of the installed command.
local function server()
  if vim.g.xduce_server ~= nil then
    local set = vim.g.xduce_server
    return type(set) == 'string' and { set } or set
  end
  local here = debug.getinfo(1, 'S').source:sub(2)
  local beside = vim.fn.fnamemodify(here, ':p:h:h:h:h') .. '/tools/language-server'
  return { vim.fn.executable(beside) == 1 and beside or 'xduce-language-server' }
end

--- The folder of the repository that a file belongs to, or else the file's own.
local function root_of(path)
  local folder = vim.fn.fnamemodify(path, ':p:h')
  local at, above = folder, nil
  while at ~= above do
    if (vim.uv or vim.loop).fs_stat(at .. '/.git') then
      return at
    end
    at, above = vim.fn.fnamemodify(at, ':h'), at
  end
  return folder
end

local function start(config)
  if vim.lsp.start then
    vim.lsp.start(config)
    return
  end
  local root = config.root_dir
  config.on_exit = function()
    clients[root] = nil
  end
  clients[root] = clients[root] or vim.lsp.start_client(config)
  if clients[root] then
    vim.lsp.buf_attach_client(0, clients[root])
  end
end

--- Lays out the buffer's text, at once.
function M.format()
  if vim.lsp.buf.format then
    vim.lsp.buf.format({ name = 'xduce', timeout_ms = 5000 })
  else
    vim.lsp.buf.formatting_sync(nil, 5000)
  end
end

--- Attaches the current buffer to the server of its folder, which is started where none runs.
function M.attach()
  local words = server()
  if type(words) ~= 'table' or not words[1] or vim.bo.buftype ~= '' then
    return
  end
  if vim.fn.executable(words[1]) ~= 1 then
    vim.notify_once('xduce: there is no server ' .. words[1], vim.log.levels.WARN)
    return
  end
  start({
    name = 'xduce',
    cmd = words,
    root_dir = root_of(vim.api.nvim_buf_get_name(0)),
    init_options = vim.g.xduce_settings,
  })
  vim.bo.omnifunc = 'v:lua.vim.lsp.omnifunc'
  vim.bo.tagfunc = 'v:lua.vim.lsp.tagfunc'
  vim.b.undo_ftplugin = (vim.b.undo_ftplugin or 'setlocal') .. ' | setlocal omnifunc< tagfunc<'
  vim.api.nvim_buf_create_user_command(0, 'XduceFormat', M.format, { desc = 'lay out the text' })
  if vim.g.no_plugin_maps or vim.g.no_xduce_maps then
    return
  end
  for _, key in ipairs(KEYS) do
    local mode, typed, call = unpack(key)
    vim.keymap.set(mode, typed, vim.lsp.buf[call], { buffer = true, desc = 'XDuce: ' .. call })
  end
end

return M
