"""The tables of calls and outcomes by which the service reads blocks (blocks.py): those of the program."""
import ast
from collections.abc import Iterator
from typing import Any

from gate.documents.explained import answer, pages
from gate.documents.pages import Tree
from gate.documents.places import spellings, variants

TABLES = "service/prefork_service/blocks.py"
CALLS, OUTCOMES = "crates/vocabulary/src/calls.rt", "crates/vocabulary/src/reports.rt"
# Reports of words that no plan was carried out for.
WITHOUT_A_PLAN = {"refused", "unread", "nothing"}
# What the program says of the answers that are plain.
PLAIN = ("plain answer", "The answer of")


def table(text: str, name: str) -> Any:
    """The value of a constant of a module."""
    for node in ast.parse(text).body:
        if isinstance(node, ast.Assign) and any(isinstance(one, ast.Name) and one.id == name for one in node.targets):
            return ast.literal_eval(node.value)
    return {}


def named_in(tree: Tree, source: str) -> set[str]:
    """The variants of the first type of a source, as blocks write them."""
    return {min(name for name in spellings(variant) if name.islower() and "_" not in name) for variant in variants(tree.text(source))}


def differences(what: str, wanted: set[str], got: set[str]) -> Iterator[str]:
    yield from (f"{TABLES}: the {what} {name} is missing" for name in sorted(wanted - got))
    yield from (f"{TABLES}: the program has no {what} {name}" for name in sorted(got - wanted))


def faults(tree: Tree) -> Iterator[str]:
    """Calls, plain answers and outcomes that the program and the service do not share."""
    text, known = tree.text(TABLES), pages(tree.program)
    plain, outcomes = table(text, "PLAIN"), set(table(text, "OUTCOMES"))
    yield from differences("call", named_in(tree, CALLS), set(plain))
    yield from differences("outcome", named_in(tree, OUTCOMES) | WITHOUT_A_PLAN, outcomes)
    explained = {name for name, (_, page) in known.items() if any(it in page for it in PLAIN)}
    yield from differences("plain answer", explained, set(plain.values()))
    yield from (f"explain does not know {name}" for name in sorted(outcomes - set(known)))
    for call, wanted in plain.items():
        page = answer(tree.program, call)
        if not page.startswith(f"{call}: call: ") and call not in known:
            yield f"explain does not know the call {call}"
        said = page.partition("Answers: ")[2].partition(";")[0].split()[:1]
        if said and said != [wanted]:
            yield f"{TABLES}: the plain answer of {call} is {said[0]}, and not {wanted}"
