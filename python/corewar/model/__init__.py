"""Plain values: settings, cells, edits and errors. Nothing here calls the library; only its header is read."""
