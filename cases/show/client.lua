-- Opens a file with the language server, and writes what the editor then knows of it, also after a change that is saved.
local file, server, result = vim.env.SHOWN, vim.env.SERVER, vim.env.RESULT
local client = vim.lsp.start_client({ name = 'jahob', cmd = { vim.env.PYTHON, server, 'lsp' } })
vim.cmd('edit ' .. file)
vim.lsp.buf_attach_client(0, client)

local function diagnostics()
  local found = {}
  for _, it in ipairs(vim.diagnostic.get(0)) do
    table.insert(found, { it.lnum, it.col, it.end_lnum, it.end_col, it.severity, it.message })
  end
  return found
end

local function answer(method, params)
  local got = vim.lsp.buf_request_sync(0, method, params, 20000)
  for _, it in pairs(got or {}) do
    return it.result
  end
end

local function document()
  return { uri = vim.uri_from_bufnr(0) }
end

local known = {}
vim.wait(60000, function() return #vim.diagnostic.get(0) > 0 end, 50)
known.opened = diagnostics()
known.lenses = answer('textDocument/codeLens', { textDocument = document() })
known.hover = answer('textDocument/hover', { textDocument = document(), position = { line = 4, character = 36 } })
vim.cmd([[%s/b \~= null/b \~= null \& a \~= b/]])
vim.cmd('write')
vim.wait(60000, function() return #vim.diagnostic.get(0) == 0 end, 50)
known.mended = diagnostics()
known.proved = answer('textDocument/codeLens', { textDocument = document() })
vim.cmd([[%s/requires/ensures "True" requires/]])
vim.cmd('write')
vim.wait(60000, function() return #vim.diagnostic.get(0) > 0 end, 50)
known.refused = diagnostics()
vim.fn.writefile({ vim.fn.json_encode(known) }, result)
vim.lsp.stop_client(client)
vim.wait(2000, function() return vim.lsp.client_is_stopped(client) end, 20)
vim.cmd('qall!')
