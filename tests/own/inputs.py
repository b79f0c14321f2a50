"""Which input each command is tried on, by its words."""

VECTORS = "tests/vectors"
# A snapshot of an item.
SNAPSHOT = f"{VECTORS}/load/an-item.in"
# Records of a dictionary, and advisories over its items.
ADVISORIES = f"{VECTORS}/evaluate/dictionary-and-advisories"

# An input of each command, for what doesn't ask which output comes.
INPUTS = {
    ("unbind",): "examples/names.txt",
    ("bind", "fs"): "examples/wfn.txt",
    ("bind", "uri"): "examples/wfn.txt",
    ("compare",): "examples/pairs.txt",
    ("resolve",): "examples/dictionary.jsonl",
    ("evaluate",): "examples/inventory.jsonl",
    ("watch",): "examples/watch.jsonl",
    ("convert",): "examples/convert.jsonl",
    ("explain",): "examples/inventory.jsonl",
    ("check",): "examples/inventory.jsonl",
    ("advise",): "examples/advise.jsonl",
    ("save",): "examples/inventory.jsonl",
    ("load",): SNAPSHOT,
    ("cover",): "examples/cover.txt",
}

# Inputs that may stand many times in one input, with their outputs. Under resolve no line changes anything, and
# under watch and advise nothing is left after the last line.
REPEATED = {
    ("unbind",): ("examples/mixed.txt", "examples/mixed.out"),
    ("bind", "fs"): ("examples/wfn.txt", "examples/wfn.out"),
    ("bind", "uri"): ("examples/wfn.txt", "examples/wfn-uris.out"),
    ("compare",): ("examples/pairs.txt", "examples/pairs.out"),
    ("convert",): ("examples/convert.jsonl", "examples/convert.out"),
    ("resolve",): (f"{VECTORS}/resolve/questions.in", f"{VECTORS}/resolve/questions.out"),
    ("watch",): (f"{VECTORS}/watch/nothing-is-left.in", f"{VECTORS}/watch/nothing-is-left.out"),
    ("advise",): (f"{VECTORS}/advise/nothing-is-left.in", f"{VECTORS}/advise/nothing-is-left.out"),
}

# Inputs of which each of the first two lines has one line as its answer, with their outputs and statuses.
AT_ONCE = {
    ("unbind",): ("examples/names.txt", "examples/names.out", 0),
    ("resolve",): (f"{VECTORS}/resolve/questions.in", f"{VECTORS}/resolve/questions.out", 1),
    ("evaluate",): (f"{VECTORS}/evaluate/refused-alone.in", f"{VECTORS}/evaluate/refused-alone.out", 1),
    ("watch",): (f"{VECTORS}/watch/changes-alone.in", f"{VECTORS}/watch/changes-alone.out", 0),
    ("convert",): (f"{VECTORS}/convert/kinds-with-defaults.in", f"{VECTORS}/convert/kinds-with-defaults.out", 0),
    ("check",): (f"{VECTORS}/check/no-statements.in", f"{VECTORS}/check/no-statements.out", 0),
    ("advise",): (f"{VECTORS}/advise/questions-alone.in", f"{VECTORS}/advise/questions-alone.out", 0),
}

# Inputs that come in single bytes, with their outputs. (tests/own/test_vectors.py has others.)
IN_PIECES = {
    ("unbind",): ("examples/mixed.txt", "examples/mixed.out"),
    ("evaluate",): (f"{ADVISORIES}.in", f"{ADVISORIES}.out"),
    ("resolve",): ("examples/dictionary.jsonl", "examples/dictionary.out"),
    ("watch",): (f"{VECTORS}/watch/refused-edits.in", f"{VECTORS}/watch/refused-edits.out"),
    ("convert",): ("examples/convert.jsonl", "examples/convert.out"),
    ("advise",): ("examples/advise.jsonl", "examples/advise.out"),
    ("cover",): ("examples/cover.txt", "examples/cover.out"),
}

# Inputs with an output of more than one line, of which a reader takes the first.
GOES_AWAY = {
    ("unbind",): ("examples/names.txt", "examples/names.out"),
    ("resolve",): ("examples/dictionary.jsonl", "examples/dictionary.out"),
    ("evaluate",): ("examples/inventory.jsonl", "examples/inventory.out"),
    ("watch",): ("examples/watch.jsonl", "examples/watch.out"),
    ("convert",): ("examples/convert.jsonl", "examples/convert.out"),
    ("advise",): ("examples/advise.jsonl", "examples/advise.out"),
}
