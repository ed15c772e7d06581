-- What Neovim shows and does with the language server, for .ci/editors: the facts, as JSON in the
-- file `out`. The current buffer is a program whose first line has a wrong name.

local facts = {}

local function wait(what)
  return vim.wait(15000, what, 20)
end

local function lines()
  return vim.api.nvim_buf_get_lines(0, 0, -1, true)
end

--- The line and the column that a string stands at, with the cursor put there.
local function go(line, text)
  local column = lines()[line]:find(text, 1, true)
  vim.api.nvim_win_set_cursor(0, { line, column - 1 })
end

local function faults()
  local found = {}
  for _, it in ipairs(vim.diagnostic.get(0)) do
    local row = it.lnum + 1
    local word = lines()[row]:sub(it.col + 1, it.end_col)
    local severity = vim.diagnostic.severity[it.severity]:lower()
    table.insert(found, { row, word, severity, (it.message:gsub('\n.*', '')) })
  end
  return found
end

local function floating()
  for _, window in ipairs(vim.api.nvim_list_wins()) do
    if vim.api.nvim_win_get_config(window).relative ~= '' then
      return window
    end
  end
end

local function keys(text)
  vim.api.nvim_feedkeys(vim.api.nvim_replace_termcodes(text, true, true, true), 'mx', false)
end

--- What may stand where a word is begun, as far as it begins so.
local function completed(line, text, count)
  go(line, text)
  local parameters = vim.lsp.util.make_position_params(0, 'utf-16')
  parameters.position.character = parameters.position.character + count
  local found = {}
  local answers = vim.lsp.buf_request_sync(0, 'textDocument/completion', parameters, 15000)
  for _, answer in pairs(answers or {}) do
    for _, it in ipairs(answer.result.items or answer.result) do
      if vim.startswith(it.label, text:sub(1, count)) then
        table.insert(found, it.label)
      end
    end
  end
  return found
end

local function tell()
  wait(function()
    return #vim.diagnostic.get(0) > 0
  end)
  facts.filetype = vim.bo.filetype
  facts.faults = faults()

  go(3, 'Title')
  keys('K')
  wait(floating)
  local window = floating()
  facts.hover = window and table.concat(
    vim.api.nvim_buf_get_lines(vim.api.nvim_win_get_buf(window), 0, -1, true), '\n')
  if window then
    vim.api.nvim_win_close(window, true)
  end

  go(3, 'Title')
  keys('<C-]>')
  facts.definition = vim.api.nvim_win_get_cursor(0)[1]

  go(3, 'Title')
  keys('grr')
  wait(function()
    return #vim.fn.getqflist() > 0
  end)
  facts.references = vim.tbl_map(function(it)
    return it.lnum
  end, vim.fn.getqflist())
  vim.cmd('cclose')

  facts.completed = completed(3, 'Title', 2)

  go(3, 'Title')
  vim.lsp.buf.rename('Heading')
  wait(function()
    return lines()[3]:find('Heading', 1, true)
  end)
  facts.renamed = lines()
  vim.cmd('silent undo')

  vim.ui.select = function(items, options, choose)
    facts.actions = vim.tbl_map(options.format_item, items)
    choose(items[1])
  end
  go(1, 'Titel')
  -- (the server mends what it has told, and tells nothing of a text that has just changed)
  wait(function()
    keys('gra')
    return vim.wait(500, function()
      return not lines()[1]:find('Titel', 1, true)
    end)
  end)
  facts.corrected = lines()[1]
  wait(function()
    return #vim.diagnostic.get(0) == 0
  end)
  facts.left = faults()

  vim.cmd('XduceFormat')
  facts.formatted = lines()

  vim.cmd('write | edit wrong.xd')
  wait(function()
    return #vim.diagnostic.get(0) > 0
  end)
  facts.document = faults()
  facts.clients = #vim.lsp.get_active_clients()
end

local is_done, told = pcall(tell)
if not is_done then
  facts.error = told
end
local file = io.open('out', 'w')
file:write(vim.fn.json_encode(facts))
file:close()
vim.cmd('qa!')
