"""Names of the package: each has one meaning."""
import ast
import collections
import pathlib
import unittest
from collections.abc import Iterator

PACKAGE = pathlib.Path(__file__).resolve().parent.parent / "prefork_service"
TOP = PACKAGE.parent.parent
QUESTIONS = ("is_", "has_", "are_", "can_")
# What a question does not do.
ACTS = {"kill", "unlink", "write_text", "send_signal", "terminate", "say", "pop", "put"}
# Their text is part of each key of the ledger.
UNTYPED = ("kit.py", "refusals.py")


def targets_of(node: ast.stmt) -> list[ast.expr]:
    """What a statement assigns to."""
    if isinstance(node, ast.Assign):
        return node.targets
    return [node.target] if isinstance(node, ast.AnnAssign) else []


def names_of(target: ast.expr) -> Iterator[str]:
    if isinstance(target, ast.Name):
        yield target.id
    elif isinstance(target, ast.Tuple):
        for one in target.elts:
            yield from names_of(one)


def defined_in(source: str) -> set[str]:
    """The constants and the types of a module."""
    found = set[str]()
    for node in ast.parse(source).body:
        if isinstance(node, ast.ClassDef):
            found.add(node.name)
        for target in targets_of(node):
            found.update(names_of(target))
    return found


def scripts() -> list[pathlib.Path]:
    """The scripts of the gate in Python, which have no suffix."""
    files = (file for file in (TOP / "ci").iterdir() if file.is_file() and not file.suffix)
    return [file for file in files if b"python3" in file.read_bytes().partition(b"\n")[0]]


def wrong_questions(source: str) -> Iterator[str]:
    """Functions that are named as questions, and have no answer or change something."""
    for node in ast.walk(ast.parse(source)):
        if isinstance(node, ast.FunctionDef) and node.name.startswith(QUESTIONS):
            told = ast.unparse(node.returns) if node.returns else ""
            if not told.startswith(("bool", "TypeGuard")):
                yield f"{node.name} -> {told}"
            for part in ast.walk(node):
                for target in part.targets if isinstance(part, ast.Assign) else [part.target] if isinstance(part, ast.AugAssign) else []:
                    yield from (f"{node.name} changes {ast.unparse(one)}" for one in ast.walk(target) if isinstance(one, ast.Attribute))
                if isinstance(part, ast.Call) and isinstance(part.func, ast.Attribute) and part.func.attr in ACTS:
                    yield f"{node.name} does {part.func.attr}"


def twice(sources: dict[str, str]) -> dict[str, list[str]]:
    """The names that several modules define, with these."""
    places = collections.defaultdict[str, list[str]](list)
    for module, source in sources.items():
        for name in defined_in(source):
            places[name].append(module)
    return {name: sorted(modules) for name, modules in places.items() if len(modules) > 1}


class NamesTest(unittest.TestCase):
    def test_no_two_modules_define_a_constant_or_a_type_of_one_name(self) -> None:
        sources = {file.stem: file.read_text() for file in PACKAGE.glob("*.py")}
        self.assertGreater(len(sources), 50)
        self.assertEqual(twice(sources), {})

    def test_such_a_name_is_found(self) -> None:
        """So that the test above is one that can fail."""
        sources = {"one": "A, B = 1, 2\nclass Queue: pass\n", "other": "B: int = 3\nQueue = dict\nC = A = 1\ndef f():\n    C = 2\n", "last": "C = 1\n"}
        self.assertEqual(twice(sources), {"A": ["one", "other"], "B": ["one", "other"], "C": ["last", "other"], "Queue": ["one", "other"]})

    def test_functions_that_are_questions_only_answer(self) -> None:
        """A function whose name asks something has an answer, and changes nothing; so it is in the service, the gate and the
        port."""
        files = [*PACKAGE.glob("*.py"), *(TOP / "ci").rglob("*.py"), *(TOP / "tests" / "reader").glob("*.py"), *scripts()]
        lost = [f"{file.name}: {fault}" for file in sorted(files) if file.name not in UNTYPED for fault in wrong_questions(file.read_text())]
        self.assertEqual(lost, [])

    def test_such_a_question_is_found(self) -> None:
        """So that the test above is one that can fail."""
        source = "def is_a(it) -> None:\n    pass\ndef has_b(it) -> bool:\n    it.c = 1\n    return it.d\ndef is_e(it) -> bool:\n    return it.kill()\n" \
            "def is_f(it) -> bool:\n    it = it.g\n    return it\n"
        self.assertEqual([*wrong_questions(source)], ["is_a -> None", "has_b changes it.c", "is_e does kill"])


if __name__ == "__main__":
    unittest.main()
