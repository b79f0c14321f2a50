"""The recipes: from feeds that others publish to records of cpe, over many machines, and to verdicts for people.

Each module is a recipe, or code that recipes share. They need the standard library alone. `console` writes messages and
ends a recipe, `feeds` reads pages, `program` runs cpe, and `machines` reads what a machine has.
"""
