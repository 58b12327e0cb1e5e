"""A language server for models, strategies, session scripts and archives: `dlkt lsp` speaks the Language Server Protocol on standard input and
output, and says in an editor what `dlkt verify` says at a terminal. Nothing of it is proved, and it claims nothing of its own."""
