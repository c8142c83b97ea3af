"""The language server: what editors that speak LSP are told of a score. It is part of the companion."""
