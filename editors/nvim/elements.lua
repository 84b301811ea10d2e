-- The language server of elements in Neovim 0.7 and later: put this file into ~/.config/nvim/plugin/,
-- and editors/vim on the path of packages. `euclid` has to be on the path.
vim.api.nvim_create_autocmd("FileType", {
  pattern = "elements",
  callback = function(event)
    local config = { name = "euclid", cmd = { "euclid", "lsp" }, root_dir = vim.fn.expand("%:p:h") }
    if vim.lsp.start then return vim.lsp.start(config) end
    _G.euclid_client = _G.euclid_client or vim.lsp.start_client(config)
    vim.lsp.buf_attach_client(event.buf, _G.euclid_client)
  end,
})
