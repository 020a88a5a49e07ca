-- Drives Neovim over isle-lsp, by its own commands, and writes a line of JSON for what comes of each. Places are lines and characters,
-- from 0 on. The configuration is neovim.lua.

-- What neovim.lua needs and Neovim 0.7 has not yet.
if vim.fn.has("nvim-0.8") == 0 then
  vim.api.nvim_create_autocmd("BufRead", { pattern = "*.isle", command = "setfiletype isle" })
  vim.lsp.start = function(config) vim.lsp.buf_attach_client(0, vim.lsp.start_client(config)) end
  vim.lsp.buf.format = vim.lsp.buf.formatting_sync
  vim.api.nvim_create_autocmd("FileType", { pattern = "isle", command = "setlocal omnifunc=v:lua.vim.lsp.omnifunc" })
  vim.fs = {
    find = function(name, how) return { vim.fn.fnamemodify(how.path, ":h") .. "/" .. name } end,
    dirname = function(path) return vim.fn.fnamemodify(path, ":h") end,
  }
end
local active_clients = vim.lsp.get_clients or vim.lsp.get_active_clients

local function tell(name, value) io.stdout:write(vim.json.encode({ name = name, value = value }) .. "\n") end
local function wait(test) return vim.wait(20000, test, 20) end
local function lines() return vim.api.nvim_buf_get_lines(0, 0, -1, true) end
-- A line from 0 on, and of a byte of it, from 1 on, the character.
local function place(line, byte) return { line, vim.fn.strchars(lines()[line + 1]:sub(1, byte - 1)) } end
-- Does a command at the last use of `twice`.
local function at_use(command, ...)
  vim.fn.search("twice w", "cw")
  command(...)
end

vim.cmd("edit a.isle")
wait(function() return #vim.diagnostic.get(0) > 0 end)
tell("diagnostics", vim.tbl_map(function(it)
  return { it.lnum, lines()[it.lnum + 1]:sub(it.col + 1, it.end_col), it.message }
end, vim.diagnostic.get(0)))

vim.api.nvim_feedkeys("\\f", "tx", false)
vim.cmd("write")
tell("formatted", vim.fn.readfile("a.isle"))

at_use(vim.lsp.buf.definition)
wait(function() return vim.fn.line(".") == 3 end)
tell("definition", place(vim.fn.line(".") - 1, vim.fn.col(".")))

vim.fn.search("y (\\zsf x", "cw")
vim.lsp.buf.implementation()
wait(function() return vim.fn.line(".") == 5 end)
tell("implementation", place(vim.fn.line(".") - 1, vim.fn.col(".")))

-- The list that a command fills: names, each with its line and its unit of UTF-16.
local function listed(command)
  vim.fn.setqflist({})
  command()
  wait(function() return #vim.fn.getqflist() > 0 end)
  vim.cmd("cclose")
  return vim.tbl_map(function(it) return { it.text, it.lnum - 1, it.col - 1 } end, vim.fn.getqflist())
end
vim.fn.search("decl \\zsf ", "cw")
tell("incoming", listed(vim.lsp.buf.incoming_calls))
vim.fn.search("rule (\\zsf ", "cw")
tell("outgoing", listed(vim.lsp.buf.outgoing_calls))

vim.fn.setqflist({})
at_use(vim.lsp.buf.references)
wait(function() return #vim.fn.getqflist() > 0 end)
vim.cmd("cclose")
tell("references", vim.tbl_map(function(it) return place(it.lnum - 1, it.col) end, vim.fn.getqflist()))

-- The text of the window that floats.
local function shown()
  for _, window in ipairs(vim.api.nvim_list_wins()) do
    if vim.api.nvim_win_get_config(window).relative ~= "" then
      return table.concat(vim.api.nvim_buf_get_lines(vim.api.nvim_win_get_buf(window), 0, -1, true), "\n")
    end
  end
end
local function close_floating()
  for _, window in ipairs(vim.api.nvim_list_wins()) do
    if vim.api.nvim_win_get_config(window).relative ~= "" then vim.api.nvim_win_close(window, true) end
  end
end
at_use(vim.lsp.buf.hover)
wait(shown)
tell("hover", (shown() or ""):match("%(decl[^\n]*"))

close_floating()
vim.fn.search("twice \\zsw", "cw")
vim.lsp.buf.signature_help()
wait(shown)
tell("signature", (shown() or ""):match("%(decl[^\n]*"))

at_use(vim.lsp.buf.rename, "double")
wait(function() return vim.fn.search("double w", "cnw") > 0 end)
tell("renamed", lines())

-- Renames `f` where it is declared, and tells the lines of both files then.
local function rename_in_both(name, old, new)
  vim.fn.search("decl \\zs" .. old .. " ", "cw")
  vim.lsp.buf.rename(new)
  local function other() return vim.fn.bufloaded("b.isle") == 1 and vim.fn.getbufline("b.isle", 1, "$") or {} end
  wait(function() return table.concat(other()):find("(" .. new .. " x)", 1, true) end)
  tell(name, { lines(), other() })
  vim.cmd("wall")
end
-- A file that comes behind the editor, and is then written anew while it is closed.
vim.fn.writefile({ "(decl g (T) T)", "(rule (g x) (f x))" }, "b.isle")
rename_in_both("renamed_in_both", "f", "h")
vim.cmd("bwipeout b.isle")
vim.fn.writefile({ "; moved", "; down", "(decl g (T) T)", "(rule (g x) (h x))" }, "b.isle")
rename_in_both("renamed_where_it_is_now", "h", "k")
tell("written", vim.fn.readfile("b.isle"))

-- Writes the first name that may stand at the end of what a pattern finds.
local function complete(pattern)
  vim.fn.search(pattern, "cew")
  local line, count, timer = vim.fn.getline("."), 0, vim.loop.new_timer()
  timer:start(20, 20, vim.schedule_wrap(function()
    count = count + 1
    if vim.fn.getline(".") ~= line or count == 1000 then
      timer:stop()
      vim.api.nvim_input("<C-y><Esc>")
    end
  end))
  vim.api.nvim_feedkeys(vim.api.nvim_replace_termcodes("a<C-x><C-o>", true, true, true), "tx!", false)
end
vim.api.nvim_buf_set_lines(0, 0, -1, true, {
  "(type Tea (enum Alpha Beta))", "(extern const $One Tea)", "(decl f (Tea) Tea)", "(rule (f (Tea.Al)) $)",
})
complete("Tea.Al")
complete("\\$")
tell("completed", vim.fn.getline("."))

-- What is shown of the first name that may stand where the cursor is.
local function ask(method, params) return vim.lsp.buf_request_sync(0, method, params, 20000)[active_clients()[1].id].result end
vim.fn.search("(f", "cew")
vim.api.nvim_win_set_cursor(0, { vim.fn.line("."), vim.fn.col(".") })
local names = ask("textDocument/completion", vim.lsp.util.make_position_params())
tell("resolved", ((ask("completionItem/resolve", (names.items or names)[1]) or {}).documentation or {}).value)

-- The type of a variable, and a use of an extractor that the first code action expands.
vim.api.nvim_buf_set_lines(0, 0, -1, true, {
  "(type T (primitive T))", "(decl f (T) T)", "(decl both (T T) T)", "(extern extractor both both)", "(decl pair (T T) T)",
  "(extractor (pair a b) (both b a))", "(rule (f (pair x _)) x)",
})
close_floating()
vim.fn.search("pair \\zsx", "cw")
vim.lsp.buf.hover()
wait(shown)
tell("typed", (shown() or ""):match("x : [^\n]*"))
close_floating()
vim.ui.select = function(items, _, choose) choose(items[1], 1) end
vim.fn.search("(\\zspair x", "cw")
vim.lsp.buf.code_action()
wait(function() return vim.fn.search("pair x", "cnw") == 0 end)
tell("expanded", lines()[7])

local client = active_clients()[1].id
vim.lsp.stop_client(client)
tell("stopped", wait(function() return vim.lsp.client_is_stopped(client) end))
vim.cmd("qall!")
