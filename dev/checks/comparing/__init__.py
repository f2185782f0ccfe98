"""Compares the values of definitions with what the library, `mars`, mars.wasm and pMARS compute.

Each module has one or a few areas: it makes random inputs, and yields each value by its definition beside the computed
one. `running` compares inputs up to the first difference, also with a mistake in a definition.
"""
