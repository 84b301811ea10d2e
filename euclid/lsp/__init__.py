"""A language server: the Language Server Protocol 3.17 over standard streams."""
