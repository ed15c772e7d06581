-- Neovim filetype plugin
-- Language: XDuce, programs and documents. Colours, comments and :make are those of Vim.

require('xduce').attach()
