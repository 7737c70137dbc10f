-- Makes mistakes in modules, one a second, through Neovim's own client, and writes for each how many milliseconds it took until it was
-- told, and whether nothing was told any more after it was taken back. PLAN has a line for each mistake: a file, a line and a column of it,
-- from 0, what is inserted there, and the first and the last line of the definition.
local out = assert(io.open(os.getenv("OUT"), "w"))
local client = vim.lsp.start_client({
  cmd = { os.getenv("PYTHON"), "-m", "stratbench.server" },
  root_dir = vim.fn.getcwd(),
  flags = { debounce_text_changes = 0 },
})

-- Waits until something holds, as long as no machine stalls.
local function until_it(holds)
  return vim.wait(300000, holds, 1)
end

-- Whether something is told of these lines.
local function told(first, last)
  for _, it in ipairs(vim.diagnostic.get(0)) do
    if it.lnum >= first and it.lnum <= last then
      return true
    end
  end
  return false
end

for plan in io.lines(os.getenv("PLAN")) do
  local file, line, column, text, first, last = plan:match("^([^\t]*)\t(%d+)\t(%d+)\t([^\t]*)\t(%d+)\t(%d+)$")
  line, column, first, last = tonumber(line), tonumber(column), tonumber(first), tonumber(last)
  vim.cmd("silent! edit " .. file)
  vim.lsp.buf_attach_client(0, client)
  until_it(function()
    local it = vim.lsp.get_client_by_id(client)
    return it ~= nil and it.initialized
  end)
  -- the module was looked at once something is answered
  vim.lsp.buf_request_sync(0, "textDocument/foldingRange", { textDocument = vim.lsp.util.make_text_document_params(0) }, 300000)
  local begun = vim.loop.hrtime()
  vim.api.nvim_buf_set_text(0, line, column, line, column, { text })
  local was_told = until_it(function()
    return told(first, last)
  end)
  local took = (vim.loop.hrtime() - begun) / 1e6
  vim.api.nvim_buf_set_text(0, line, column, line, column + #text, { "" })
  local none = until_it(function()
    return #vim.diagnostic.get(0) == 0
  end)
  out:write(string.format("%s\t%.1f\t%s\n", tostring(was_told), took, tostring(none)))
  out:flush()
  vim.wait(math.max(1, 1000 - math.floor((vim.loop.hrtime() - begun) / 1e6)), function()
    return false
  end)
end
vim.cmd("qall!")
