#!/usr/bin/env python3
"""Writes the inputs of bench/scopes.sh: bench/scope_units.py FOLDER.

Units of about 1,000, 16,000 and 65,000 nodes of each shape: names that are looked up through many scopes, many names, one name
that many scopes declare, one name that is used many times, functions that use a name which is declared behind them, and one name
that is used many times before its `var`, so that the linter walks to that in the tree."""
import sys

NODES = (1000, 16000, 65000)
MARKED = "(expr (arrow y n (params [] -) (null)))"
USE = '(id "x")'
NESTED = 250


def declared(name, kind="let"):
    """Three nodes."""
    return f'(var "{kind}" [(declarator (bind "{name}" -) -)])'


def nested(nodes):
    """Blocks that stand in one another, with as many uses in each as fit. The outermost declares the name that is used."""
    uses = (nodes - 9 - NESTED) // 2
    inner = ""
    for block in reversed(range(NESTED)):
        count = uses * (block + 1) // NESTED - uses * block // NESTED
        parts = [declared("x")] * (block == 0) + [f"(expr {USE})"] * count + [inner] * (inner != "")
        inner = f"(block [{' '.join(parts)}])"
    return [inner]


def distinct(nodes):
    return [declared(f"name{index}") for index in range((nodes - 6) // 3)]


def siblings(nodes):
    return [f"(block [{declared('x')}])"] * ((nodes - 6) // 4)


def uses(nodes):
    return [declared("x"), f"(expr (array [{' '.join([USE] * (nodes - 11))}]))"]


def functions(nodes):
    inner = f"(params [] -) (body [] [(return {USE})])"
    return [f'(fundecl n n n (bind "name{index}" -) {inner})' for index in range((nodes - 9) // 6)] + [declared("x")]


def hoisted(nodes):
    return [f"(expr (array [{' '.join([USE] * (nodes - 11))}]))", declared("x", "var")]


for shape in (nested, distinct, siblings, uses, functions, hoisted):
    for nodes in NODES:
        with open(f"{sys.argv[1]}/{shape.__name__}-{nodes}.unit", "w") as file:
            file.write(f"(unit [] (program [{' '.join([MARKED] + shape(nodes))}]))")
