"""The rules of the house: small crates and functions, few parameters, and one meaning for the name of a type."""
from collections import defaultdict
from collections.abc import Iterator

from gate.documents.pages import Tree
from gate.documents.sources import Function, crates, functions, types

MOST_LINES, MOST_FUNCTIONS = 1_400, 100
MOST_PARAMETERS, MOST_BODY = 6, 40
# Scripts of the gate and of measurements, and the lines of one at most.
SCRIPTS, MOST_OF_SCRIPT = ("ci/[a-z]*", "ci/*/*.py", "ci/gate/documents/*.py", "bench/*"), 400
# Crates of tests have long tables of values.
TESTS = "tests_of_"


def size_faults(tree: Tree) -> Iterator[str]:
    """Crates and scripts that are too long, or have too many functions: a reason to split them."""
    for name, sources in crates(tree):
        lines = sum(text.count("\n") for text in sources.values())
        count = sum(len(list(functions(text))) for text in sources.values())
        if lines > MOST_LINES:
            yield f"crates/{name}: {lines} lines, more than {MOST_LINES}"
        if count > MOST_FUNCTIONS:
            yield f"crates/{name}: {count} functions, more than {MOST_FUNCTIONS}"
    for path in tree.paths(*SCRIPTS):
        if (tree.root / path).is_file() and tree.text(path).count("\n") > MOST_OF_SCRIPT:
            yield f"{path}: more than {MOST_OF_SCRIPT} lines: make modules of its parts"


def faults_of(function: Function) -> Iterator[str]:
    """What is too much about a function."""
    if function.parameters > MOST_PARAMETERS:
        yield f"{function.name} has {function.parameters} parameters, more than {MOST_PARAMETERS}"
    if function.lines > MOST_BODY:
        yield f"{function.name} has {function.lines} lines, more than {MOST_BODY}"


def function_faults(tree: Tree) -> Iterator[str]:
    """Functions outside tests that have too many parameters or lines."""
    for name, sources in crates(tree):
        for path, text in () if name.startswith(TESTS) else sources.items():
            for function in functions(text):
                yield from (f"{path}:{function.line}: {fault}" for fault in faults_of(function))


def type_faults(tree: Tree) -> Iterator[str]:
    """Types of different crates with one name."""
    owners: dict[str, set[str]] = defaultdict(set)
    for name, sources in crates(tree):
        for text in sources.values():
            for declared in types(text):
                owners[declared].add(name)
    for declared, named in owners.items():
        if len(named) > 1:
            yield f"{declared} is a type of {' and of '.join(sorted(named))}"
