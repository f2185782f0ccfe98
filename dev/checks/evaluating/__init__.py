"""Evaluates the definitions of crates/*/specs in Python.

`words`, `terms` and `parser` read the language of the definitions, `files` the files and what their names mean.
`translator`, with `patterns` and `uses`, writes each definition as a Python function over the operations of `base`.
`evaluator` puts them together:

    from evaluating.evaluator import Evaluator
    turn_of = Evaluator(FOLDER_OF_THE_REPOSITORY).get("mars_core.Turn.turn_of")
"""
