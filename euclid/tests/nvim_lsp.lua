-- Neovim with the language server, without a screen: what a user does, and what is seen.
local book, out = vim.env.BOOK, vim.env.OUT
local said = {}
local function say(text) table.insert(said, text) end
local function done() vim.fn.writefile(said, out); vim.cmd("qa!") end
local function until_true(what, test)
  if not vim.wait(20000, test, 50) then say("NOT " .. what); done() end
end
local ok, trouble = pcall(function()
  vim.cmd("edit " .. book)
  say("filetype " .. vim.bo.filetype)
  until_true("attached", function() return #vim.lsp.buf_get_clients() > 0 end)
  local function faults() return vim.diagnostic.get(0) end
  until_true("a diagnostic", function() return #faults() > 0 and #vim.lsp.buf_get_clients() > 0 end)
  vim.wait(1500)
  local first = faults()[1]
  say(string.format("diagnostic %d:%d %s", first.lnum + 1, first.col + 1, vim.split(first.message, "\n")[1]))

  local function ask(method, params)
    local answers = vim.lsp.buf_request_sync(0, method, params, 20000) or {}
    for _, answer in pairs(answers) do return answer.result end
  end
  vim.api.nvim_win_set_cursor(0, { first.lnum + 1, first.col })
  local params = vim.lsp.util.make_range_params()
  params.context = { diagnostics = {} }
  local actions = ask("textDocument/codeAction", params)
  say("action " .. actions[1].title)
  vim.lsp.util.apply_workspace_edit(actions[1].edit, "utf-16")
  until_true("mended", function() return #faults() == 0 end)
  say("mended")

  local here = vim.fn.search("^apply")
  vim.api.nvim_win_set_cursor(0, { here, 7 })
  local hover = ask("textDocument/hover", vim.lsp.util.make_position_params())
  say("hover " .. vim.split(hover.contents.value, "\n")[1])
  local place = ask("textDocument/definition", vim.lsp.util.make_position_params())[1]
  say("definition " .. vim.fn.fnamemodify(vim.uri_to_fname(place.uri), ":t") .. ":" .. place.range.start.line + 1)
  local items = ask("textDocument/completion", vim.lsp.util.make_position_params())
  say("completion " .. (#(items.items or items) > 0 and "some" or "none"))
  local renaming = vim.lsp.util.make_position_params()
  renaming.newName = "other-title"
  vim.lsp.util.apply_workspace_edit(ask("textDocument/rename", renaming), "utf-16")
  say("renamed " .. vim.fn.getline(here):match("^apply (%S+)"))
  vim.api.nvim_win_set_cursor(0, { vim.fn.search("^theorem", "n"), 0 })
  say("make " .. vim.o.makeprg:gsub("%s+.*", ""))
end)
if not ok then say("ERROR " .. tostring(trouble)) end
done()
