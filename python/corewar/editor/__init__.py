"""The language server: what an editor asks about a source, answered by the assembler and by `explain`."""
