-- The language server of the Core War kit, in Neovim 0.7 and later.
local corewar = {}

-- The keys of later versions of Neovim, and `gd`.
local keys = {
  K = "hover",
  gd = "definition",
  gO = "document_symbol",
  gra = "code_action",
  grn = "rename",
  grr = "references",
}
local client

-- Returns the number of the running server, or nil if it cannot be started.
local function started(command)
  if not (client and vim.lsp.get_client_by_id(client)) then
    -- The server itself waits until nothing is typed.
    local config = { name = "corewar", cmd = command, flags = { debounce_text_changes = 0 } }
    client = (vim.lsp.start or vim.lsp.start_client)(config)
    if client then
      vim.diagnostic.config({ update_in_insert = true }, vim.lsp.diagnostic.get_namespace(client))
    end
  end
  return client
end

-- Starts the server for each Redcode source. `command` has its words, by default those of `corewar lsp`.
function corewar.setup(command)
  vim.api.nvim_create_autocmd("FileType", {
    pattern = "redcode",
    callback = function(event)
      if started(command or { "corewar", "lsp" }) then
        vim.lsp.buf_attach_client(event.buf, client)
        vim.bo[event.buf].omnifunc = "v:lua.vim.lsp.omnifunc"
        for key, action in pairs(keys) do
          vim.keymap.set("n", key, vim.lsp.buf[action], { buffer = event.buf })
        end
      end
    end,
  })
end

return corewar
