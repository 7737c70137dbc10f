-- Drives the language server through Neovim's own client, and writes what comes of it, a line each, to the file OUT.
local out = assert(io.open(os.getenv("OUT"), "w"))
local function say(...)
  out:write(table.concat({ ... }, "\t"), "\n")
  out:flush()
end

vim.cmd("edit " .. os.getenv("FILE"))
local client = vim.lsp.start_client({ cmd = { os.getenv("PYTHON"), "-m", "stratbench.server" }, root_dir = vim.fn.getcwd() })
vim.lsp.buf_attach_client(0, client)

-- Waits until something holds, as long as no machine stalls.
local function until_it(holds)
  return vim.wait(300000, holds, 2)
end

until_it(function()
  local it = vim.lsp.get_client_by_id(client)
  return it ~= nil and it.initialized
end)
local line = vim.fn.search("twice(s) =", "n")
local text = vim.fn.getline(line)
vim.fn.setline(line, (text:gsub("= ", "= nope; ", 1)))
until_it(function()
  return #vim.diagnostic.get(0) > 0
end)
for _, it in ipairs(vim.diagnostic.get(0)) do
  say("diagnostic", it.lnum .. ":" .. it.col .. "-" .. it.end_col, (it.message:gsub("\n", " | ")))
end
vim.fn.setline(line, text)
say("none left", tostring(until_it(function()
  return #vim.diagnostic.get(0) == 0
end)))

local function asked(method, column)
  local position = { line = line - 1, character = column }
  local given = { textDocument = vim.lsp.util.make_text_document_params(0), position = position }
  return vim.lsp.buf_request_sync(0, method, given, 300000)[client].result
end
for _, it in ipairs(asked("textDocument/completion", 13)) do
  if it.filterText == "twice" then
    say("completion", it.label, it.insertText, it.detail)
  end
end
say("definition", #asked("textDocument/definition", 3))
vim.fn.cursor(line, 3)
vim.lsp.buf.rename("double")
until_it(function()
  return vim.fn.getline(line):find("double") ~= nil
end)
for number = 1, vim.fn.line("$") do
  say("renamed", vim.fn.getline(number))
end
vim.cmd("qall!")
