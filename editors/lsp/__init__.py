"""The parts of the language server."""
