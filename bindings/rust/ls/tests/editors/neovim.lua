-- Drives rnix-ls from Neovim: nvim --headless -S neovim.lua, beside copies of example.nix and packages.nix, with an init.lua that starts rnix-ls.
local function fail(message)
  io.stderr:write('neovim: ' .. message .. '\n')
  vim.cmd('cquit 1')
end

local function check(wanted, found, what)
  if not vim.deep_equal(wanted, found) then
    fail(what .. ': wanted ' .. vim.inspect(wanted) .. ', found ' .. vim.inspect(found))
  end
end

-- Waits until a function returns a value.
local function wait_for(what, get)
  local value
  if not vim.wait(20000, function() value = get() return value end, 20) then
    fail('no ' .. what)
  end
  return value
end

local function lines()
  return vim.api.nvim_buf_get_lines(0, 0, -1, true)
end

-- The places of a word in the text, each as a line and a column from 0.
local function places(word)
  local found = {}
  for number, line in ipairs(lines()) do
    local from = 1
    while line:find(word, from, true) do
      local at = line:find(word, from, true)
      table.insert(found, { number - 1, at - 1 })
      from = at + 1
    end
  end
  return found
end

local function go_to(place)
  vim.api.nvim_win_set_cursor(0, { place[1] + 1, place[2] })
end

local function here()
  local cursor = vim.api.nvim_win_get_cursor(0)
  return { cursor[1] - 1, cursor[2] }
end

-- Waits until there are as many diagnostics as wanted, and returns them: a line, a column, a severity and a message.
local function diagnostics(count)
  local found
  wait_for(count .. ' diagnostics', function()
    found = vim.diagnostic.get(0)
    return #found == count
  end)
  return vim.tbl_map(function(it) return { it.lnum, it.col, it.severity, it.message } end, found)
end

local function ask(method, params)
  local answers = vim.lsp.buf_request_sync(0, 'textDocument/' .. method, params, 20000)
  local _, answer = next(answers or {})
  if not answer then
    fail('no answer to ' .. method)
  end
  return answer.result, answer.error
end

-- Applies the first code action at a place, which is of a kind.
local function act(place, title, kind)
  go_to(place)
  local params = vim.lsp.util.make_range_params()
  params.context = { diagnostics = {}, only = { kind } }
  local actions = ask('codeAction', params)
  check(title, actions[1] and actions[1].title, 'the code action')
  vim.lsp.util.apply_workspace_edit(actions[1].edit, 'utf-16')
end

local function quick_fix(place, title)
  act(place, title, 'quickfix')
end

local function name_of_file()
  return vim.fn.expand('%:t')
end

-- Another file: a definition there, what comes after `builtins.`, and a code action.
local function run_across()
  vim.cmd('edit packages.nix')
  wait_for('client', function() return next(vim.lsp.buf_get_clients(0)) end)
  go_to(places('example.nix')[1])
  vim.lsp.buf.definition()
  wait_for('file', function() return name_of_file() == 'example.nix' end)
  check({ 1, 0 }, here(), 'the parameters of the other file')
  vim.cmd('edit packages.nix')

  go_to(places('attrNames')[1])
  vim.cmd('normal! dw')
  wait_for('change', function() return #places('builtins.{') == 1 end)
  local params = vim.lsp.util.make_position_params()
  local found = {}
  for _, item in ipairs(ask('completion', params).items) do
    found[item.label] = item.detail
  end
  check('mapAttrs f attrset', found.mapAttrs, 'a function of builtins')
  vim.cmd('silent undo')

  act(places('openssl')[1], 'Give `openssl` its own entry', 'refactor.rewrite')
  check(1, #places('    openssl = lib.openssl;'), 'the entry')
  vim.cmd('silent undo')
end

local function run()
  vim.cmd('edit example.nix')
  local place = places('unused')[1]
  local hint = { place[1], place[2], vim.diagnostic.severity.HINT, '`unused` is not used' }
  check({ hint }, diagnostics(1), 'the unused name')

  -- An error while typing, and its correction.
  local text = lines()
  go_to(places('"2.12.1";')[1])
  vim.cmd('normal! $x')
  local message = 'expected ";" after the value of "version", found "="'
  wait_for('error', function() return diagnostics(1)[1][4] == message end)
  vim.cmd('silent undo')
  wait_for('correction', function() return vim.deep_equal({ hint }, diagnostics(1)) end)
  check(text, lines(), 'the text')

  -- The same error, and its quick fix.
  go_to(places('"2.12.1";')[1])
  vim.cmd('normal! $x')
  wait_for('second error', function() return diagnostics(1)[1][4] == message end)
  local shown = diagnostics(1)[1]
  quick_fix({ shown[1], shown[2] }, 'Insert `;`')
  wait_for('second correction', function() return vim.deep_equal({ hint }, diagnostics(1)) end)
  check(text, lines(), 'the text after the quick fix')

  go_to(places('archive}')[1])
  vim.lsp.buf.definition()
  wait_for('definition', function() return vim.deep_equal(here(), places('archive =')[1]) end)

  -- The same in a line with a character of three bytes.
  go_to(places('pname}')[1])
  vim.lsp.buf.definition()
  wait_for('second definition', function() return vim.deep_equal(here(), places('pname')[1]) end)

  go_to(places('version}')[1])
  vim.lsp.buf.rename('release')
  wait_for('renaming', function() return #places('release') == 3 end)
  local renamed = table.concat(text, '\n'):gsub('version =', 'release ='):gsub('{version}', '{release}'):gsub('inherit version', 'version = release')
  check(vim.split(renamed, '\n'), lines(), 'the renamed text')

  go_to(places('tools: map')[1])
  local params = vim.lsp.util.make_position_params()
  params.newName = 'lib'
  local _, refusal = ask('rename', params)
  check('with the new name, some name would refer to something else', refusal and refusal.message, 'the refusal')

  local hover = ask('hover', vim.lsp.util.make_position_params()).contents.value
  check('A parameter, line 15', hover:match('A parameter.*'), 'the hover')

  -- The quick fix for the unused name.
  quick_fix(places('unused')[1], 'Remove `unused`')
  check({}, places('unused'), 'the removed name')
  wait_for('next unused name', function() return diagnostics(1)[1][4] == '`args` is not used' end)

  -- Formatting gives the line its spaces back.
  text = lines()
  go_to(places('pname = ')[1])
  vim.cmd('substitute/pname = /pname=/')
  wait_for('change', function() return #places('pname=') == 1 end)
  local format = vim.lsp.buf.format or vim.lsp.buf.formatting_sync
  format()
  wait_for('formatting', function() return #places('pname=') == 0 end)
  check(text, lines(), 'the formatted text')
  vim.cmd('silent write')

  run_across()
  vim.lsp.stop_client(vim.lsp.get_active_clients())
  wait_for('end of the server', function() return #vim.lsp.get_active_clients() == 0 end)
end

local is_done, message = pcall(run)
if not is_done then
  fail(message)
end
vim.cmd('qall!')
