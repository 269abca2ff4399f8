-- Starts nomos-lsp for contracts and scripts, once for all of them. The variable g:nomos_lsp may name another program,
-- such as that of a checkout.
local client

local function start()
  return vim.lsp.start_client({
    name = "nomos-lsp",
    cmd = { vim.g.nomos_lsp or "nomos-lsp" },
    root_dir = vim.fn.getcwd(),
    get_language_id = function(buffer)
      return vim.api.nvim_buf_get_name(buffer):match("%.script$") and "nomos-script" or "nomos"
    end,
    on_exit = function()
      client = nil
    end,
  })
end

local function attach(event)
  client = client or start()
  if client then
    vim.lsp.buf_attach_client(event.buf, client)
    vim.api.nvim_buf_set_option(event.buf, "omnifunc", "v:lua.vim.lsp.omnifunc")
    vim.keymap.set("n", "K", vim.lsp.buf.hover, { buffer = event.buf })
    vim.keymap.set("n", "gd", vim.lsp.buf.definition, { buffer = event.buf })
  end
end

vim.api.nvim_create_autocmd({ "BufRead", "BufNewFile" }, { pattern = { "*.nomos", "*.script" }, callback = attach })
