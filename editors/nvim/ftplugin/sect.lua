-- Starts the language server for a buffer: `sectc`, or the program that `g:sectc` names. `g:sectc_k` is the most fields
-- of a path in a lock.
local sectc = vim.g.sectc or "sectc"
if vim.fn.executable(sectc) == 0 then
  return
end
local config = {
  name = "sectc",
  cmd = { sectc, "lsp" },
  root_dir = vim.fn.getcwd(),
  init_options = { k = vim.g.sectc_k or 2 },
}
if vim.lsp.start then
  vim.lsp.start(config)
elseif not vim.b.sectc_client then
  vim.b.sectc_client = vim.lsp.start_client(config)
  vim.lsp.buf_attach_client(0, vim.b.sectc_client)
end
