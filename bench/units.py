#!/usr/bin/env python3
"""Writes the inputs of bench/run.sh: bench/units.py FOLDER.

One unit of about 4,096 nodes and one of about 65,536 of each sort, a unit of one long text, of 2^24 bytes in all, and
2^24 + 1 bytes, past the limit. A sort is a statement that is repeated, or "parameters": a call with all of the parameters."""
import sys

STATEMENTS = {
    "statements": "(expr (null))",
    "returns": '(return (num "1"))',
    "operators": '(expr (binary "+" (id "a") (num "1")))',
    "calls": '(expr (call n (id "f") [(id "a")]))',
}
NODES = (4096, 65536)
MOST_BYTES = 2**24


def unit(params, body):
    return f"(unit [] (program [(expr (arrow y n (params [{params}] -) {body}))]))"


def of_statement(statement, nodes):
    """The statement, as often as it fits: six nodes are around the list."""
    count = (nodes - 6) // statement.count("(")
    return unit("", f"(body [] [{' '.join([statement] * count)}])")


def of_parameters(nodes):
    """A parameter and its argument have three nodes, and seven are around them."""
    names = [f"p{index}" for index in range((nodes - 7) // 3)]
    params = " ".join(f'(param (bind "{name}" -) -)' for name in names)
    return unit(params, '(call n (id "f") [' + " ".join(f'(id "{name}")' for name in names) + "])")


def inputs():
    for nodes in NODES:
        for sort, statement in STATEMENTS.items():
            yield f"{sort}-{nodes}", of_statement(statement, nodes)
        yield f"parameters-{nodes}", of_parameters(nodes)
    yield "text", unit("", '(str "' + "a" * (MOST_BYTES - len(unit("", '(str "")'))) + '")')
    yield "refused", "(" * (MOST_BYTES + 1)


for name, text in inputs():
    with open(f"{sys.argv[1]}/{name}.unit", "w") as file:
        file.write(text)
