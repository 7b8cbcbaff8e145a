"""The types of the service's sources, of the gate's scripts and of the port, by mypy where it is installed (Debian: mypy); and
what ruff finds by its usual rules, or pyflakes and pycodestyle in its place (Debian: pyflakes3, pycodestyle)."""
import pathlib
import shutil
import subprocess
import tempfile
import tomllib
import unittest

TOP = pathlib.Path(__file__).resolve().parent.parent.parent
RULES = TOP / "pyproject.toml"
# Debian's: another one may have other rules.
MYPY, PYFLAKES, PYCODESTYLE = "/usr/bin/mypy", "/usr/bin/pyflakes3", "/usr/bin/pycodestyle"
# Among the scripts it would be found in place of the module of this name.
ALONE = TOP / "ci" / "json"
SECONDS = 900
FOLDERS = ("service/prefork_service", "service/examples", "ci", "tests/reader")
# The rules that ruff has without being asked for others, but for those of pyflakes.
USUAL = ("E401", "E402", "E701", "E702", "E703", "E711", "E712", "E713", "E714", "E721", "E722", "E731", "E741", "E742", "E743", "E9")


def scripts() -> list[str]:
    """The scripts of the gate in Python, which have no suffix."""
    files = sorted(file for file in (TOP / "ci").iterdir() if file.is_file() and not file.suffix)
    return [str(file.relative_to(TOP)) for file in files if b"python3" in file.read_bytes().partition(b"\n")[0]]


def ignored(folder: str) -> list[str]:
    """The rules of the style that do not hold in a folder."""
    rules = tomllib.loads(RULES.read_text())["tool"]["ruff"]["lint"]
    return [*rules["ignore"], *rules["per-file-ignores"].get(f"{folder}/*", [])]


@unittest.skipUnless(shutil.which(MYPY), "mypy is not installed")
class TypesTest(unittest.TestCase):
    def test_mypy_finds_nothing(self) -> None:
        self.assertEqual(self.found(), "")

    def test_mypy_finds_nothing_in_the_script_that_is_called_as_a_module(self) -> None:
        with tempfile.TemporaryDirectory() as room:
            copied = pathlib.Path(room) / "beside_texts.py"
            shutil.copy(ALONE, copied)
            self.assertEqual(self.found(str(copied)), "")

    def test_each_script_is_looked_at(self) -> None:
        named = tomllib.loads(RULES.read_text())["tool"]["mypy"]["files"]
        self.assertEqual(set(scripts()), {*(name for name in named if name not in FOLDERS), "ci/json"})
        self.assertLessEqual(set(FOLDERS), set(named))

    def test_mypy_finds_a_wrong_type(self) -> None:
        """So that the tests above are ones that can fail."""
        with tempfile.TemporaryDirectory() as room:
            wrong = pathlib.Path(room) / "wrong.py"
            for text, said in (
                ('def number() -> int:\n    return "one"\n', "Incompatible return value"), ("def number(it):\n    return it\n", "no-untyped-def"),
            ):
                wrong.write_text(text)
                self.assertIn(said, self.found(str(wrong)))

    def found(self, *files: str) -> str:
        """What mypy says, but for its last line where it has nothing to say."""
        with tempfile.TemporaryDirectory() as cache:
            command = [MYPY, "--config-file", str(RULES), "--cache-dir", cache, "--no-error-summary", *files]
            return subprocess.run(command, cwd=TOP, capture_output=True, text=True, timeout=SECONDS).stdout


class StyleTest(unittest.TestCase):
    def said(self, *command: str) -> list[str]:
        return subprocess.run(command, cwd=TOP, capture_output=True, text=True, timeout=SECONDS).stdout.splitlines()

    @unittest.skipUnless(shutil.which("ruff"), "ruff is not installed")
    def test_ruff_finds_nothing(self) -> None:
        self.assertEqual(self.said("ruff", "check", "--quiet", "--no-cache", *FOLDERS, *scripts()), [])

    @unittest.skipUnless(shutil.which(PYFLAKES), "pyflakes is not installed")
    def test_pyflakes_finds_nothing(self) -> None:
        kept = "ci/gate/kit.py: 're' imported but unused"
        found = [line for line in self.said(PYFLAKES, *FOLDERS, *scripts()) if f"{line.split(':')[0]}: {line.partition(' ')[2]}" != kept]
        self.assertEqual(found, [])
        with tempfile.NamedTemporaryFile("w", suffix=".py") as wrong:
            wrong.write("import os\n")
            wrong.flush()
            self.assertIn("'os' imported but unused", self.said(PYFLAKES, wrong.name)[0])

    @unittest.skipUnless(shutil.which(PYCODESTYLE), "pycodestyle is not installed")
    def test_pycodestyle_finds_nothing(self) -> None:
        for folder in FOLDERS:
            more = scripts() if folder == "ci" else []
            with self.subTest(folder):
                rules = [rule for rule in USUAL if rule not in ignored(folder)]
                self.assertEqual(self.said(PYCODESTYLE, f"--select={','.join(rules)}", folder, *more), [])
        with tempfile.NamedTemporaryFile("w", suffix=".py") as wrong:
            wrong.write("double = lambda number: 2 * number\n")
            wrong.flush()
            self.assertIn("E731", self.said(PYCODESTYLE, f"--select={','.join(USUAL)}", wrong.name)[0])


if __name__ == "__main__":
    unittest.main()
