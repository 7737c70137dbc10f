-- Opens FILE, which has a mistake, in Neovim with the language server, says in the file OUT that the mistake is told, and waits to be killed.
vim.cmd("edit " .. os.getenv("FILE"))
local client = vim.lsp.start_client({ cmd = { os.getenv("PYTHON"), "-m", "stratbench.server" }, root_dir = vim.fn.getcwd() })
vim.lsp.buf_attach_client(0, client)
local told = vim.wait(300000, function()
  return #vim.diagnostic.get(0) > 0
end, 2)
local out = assert(io.open(os.getenv("OUT") .. "-begun", "w"))
out:write(tostring(told))
out:close()
-- whoever waits for the file finds it whole
os.rename(os.getenv("OUT") .. "-begun", os.getenv("OUT"))
vim.wait(300000, function()
  return false
end)
