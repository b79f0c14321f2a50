#!/usr/bin/env python3
"""Changes each operator, text and number of model.py alone, and prints the changes that no case notices.

This takes half a minute, and is run by hand after cases were changed. What it prints has to be equal to the model: `x`
added where it is no character that is read, or what only `__main__` uses.
"""

import ast
import sys
from collections.abc import Iterator

import conformance

OPERATORS = {ast.Eq: ast.NotEq, ast.NotEq: ast.Eq, ast.In: ast.NotIn, ast.NotIn: ast.In, ast.LtE: ast.Lt, ast.Gt: ast.GtE, ast.Lt: ast.LtE}


def changes(node: ast.AST) -> Iterator[tuple[str, object]]:
    """A member of the node, and what it becomes."""
    if isinstance(node, ast.Compare) and len(node.ops) == 1 and type(node.ops[0]) in OPERATORS:
        yield "ops", [OPERATORS[type(node.ops[0])]()]
    if isinstance(node, ast.BoolOp):
        yield "op", ast.Or() if isinstance(node.op, ast.And) else ast.And()
    if isinstance(node, ast.Constant) and isinstance(node.value, str):
        yield "value", node.value + "x"
    if isinstance(node, ast.Constant) and type(node.value) is int:
        yield "value", node.value + 1


def is_noticed(tree: ast.Module) -> bool:
    """Whether a case fails with the model of this tree."""
    try:
        model = conformance.made(ast.unparse(tree))
    except Exception:
        return True
    return not all(conformance.is_passed(model, it) for it in conformance.CASES)


def main() -> None:
    tree, tried = ast.parse(conformance.MODEL), 0
    docs = {
        id(it.body[0].value) for it in ast.walk(tree) if isinstance(it, (ast.Module, ast.FunctionDef)) and isinstance(it.body[0], ast.Expr)
    }
    for node in list(ast.walk(tree)):
        for member, changed in changes(node) if id(node) not in docs else ():
            before = getattr(node, member)
            setattr(node, member, changed)
            tried += 1
            if not is_noticed(tree):
                print(f"line {node.lineno}: no case notices {ast.unparse(node)[:100]}", flush=True)
            setattr(node, member, before)
    print(f"{tried} changes", file=sys.stderr)


if __name__ == "__main__":
    main()
