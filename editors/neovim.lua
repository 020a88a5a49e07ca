vim.filetype.add({ extension = { isle = "isle" } })
vim.api.nvim_create_autocmd("FileType", { pattern = "isle", callback = function(event)
  local file = vim.api.nvim_buf_get_name(event.buf)
  vim.lsp.start({
    name = "isle-lsp", cmd = { "isle-lsp" },
    root_dir = vim.fs.dirname(vim.fs.find(".git", { upward = true, path = file })[1]),
  })
  vim.keymap.set("n", "<leader>f", function() vim.lsp.buf.format() end, { buffer = event.buf })
end })
