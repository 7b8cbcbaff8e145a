"""Prefork's answers, by its proved program in this process: what `prefork enact` and its kin would print.

    import prefork
    told = prefork.enact(a, b, "HUP", pattern="3 fail again\\n")
    told.status, told.output, told.errors

`a` and `b` are the texts of the configuration that runs and of the one that comes. No file is read, no process is started,
and nothing stays from one call to the next: many threads may call at once, and the interpreter's lock is let go meanwhile.
PREFORK_LIBRARY names another library than the one beside this file.
"""
import ctypes
import json
import os
import pathlib
from collections.abc import Iterable
from typing import Any, NamedTuple

Text = str | bytes
File = tuple[Text, Text]
MOST_FILES = 64


class Told(NamedTuple):
    """What the program would print, and its exit status."""

    status: int
    output: str
    errors: str

    def answer(self) -> Any:
        """The answer of a call with `json=True`."""
        return json.loads(self.output)


def load(path: str | pathlib.Path) -> ctypes.CDLL:
    """The library, with the types of its functions as prefork.h has them."""
    library = ctypes.CDLL(str(path))
    types: dict[str, tuple[Any, list[Any]]] = {
        "prefork_give": (None, [ctypes.c_int, ctypes.c_char_p, ctypes.c_size_t]),
        "prefork_run": (ctypes.c_int, []),
        "prefork_wrote": (ctypes.c_void_p, [ctypes.c_int]),
        "prefork_wrote_length": (ctypes.c_size_t, [ctypes.c_int]),
        "prefork_forget": (None, []),
        "prefork_refuse_after": (None, [ctypes.c_long]),
        "prefork_growths": (ctypes.c_size_t, []),
    }
    for name, (result, arguments) in types.items():
        function = getattr(library, name)
        function.restype, function.argtypes = result, arguments
    return library


LIBRARY = load(os.environ.get("PREFORK_LIBRARY") or pathlib.Path(__file__).resolve().parent / "libprefork.so")


def as_bytes(text: Text) -> bytes:
    return text.encode("utf-8", "surrogateescape") if isinstance(text, str) else text


def written(which: int) -> str:
    """What the last run wrote to standard output (0) or standard error (1)."""
    length = LIBRARY.prefork_wrote_length(which)
    found = ctypes.string_at(LIBRARY.prefork_wrote(which), length) if length else b""
    return found.decode("utf-8", "surrogateescape")


def answer(*words: Text, files: Iterable[File] = (), input: Text = "") -> Told:
    """What `prefork WORDS` prints, with these files (pairs of a name and a text) and this standard input."""
    named = list(files)
    if len(named) > MOST_FILES:
        raise ValueError(f"at most {MOST_FILES} files")
    line = [as_bytes(word) for word in ("prefork", *words)]
    if any(b"\0" in word for word in line):
        raise ValueError("a word has a byte 0")
    texts = [b"".join(word + b"\0" for word in line), as_bytes(input)]
    for file in named:
        texts += map(as_bytes, file)
    for which, text in enumerate(texts):
        LIBRARY.prefork_give(which, text, len(text))
    status = LIBRARY.prefork_run()
    told = Told(status, written(0), written(1))
    LIBRARY.prefork_forget()
    return told


class Start(NamedTuple):
    """What a rehearsal begins with: the options that several subcommands have."""

    workers: int | None = None
    bare: bool = False
    held: str | None = None
    why: bool = False
    json: bool = False

    def words(self) -> list[str]:
        words = ["--workers", str(self.workers)] if self.workers is not None else []
        words += ["--bare"] * self.bare + ["--why"] * self.why + ["--json"] * self.json
        return words + (["--held", self.held] if self.held is not None else [])


def asked(subcommand: str, a: Text | None, b: Text | None, start: Start) -> tuple[list[str], list[File]]:
    """The first words of a command line, and its files."""
    words = [subcommand]
    files: list[File] = []
    for option, name, text in (("--from", "a.toml", a), ("--to", "b.toml", b)):
        if text is not None:
            words += [option, name]
            files.append((name, text))
    return words + start.words(), files


def enact(a: Text | None, b: Text | None, *words: str, pattern: Text = "", state: bool = False, **start: Any) -> Told:
    """The blocks of these words under a pattern; with `state` the table after them."""
    line, files = asked("enact", a, b, Start(**start))
    return answer(*line, *["--state"] * state, "--", *words, files=files, input=pattern)


def plan(a: Text | None, b: Text | None, word: str, dot: bool = False, **start: Any) -> Told:
    """The plan of a word."""
    line, files = asked("plan", a, b, Start(**start))
    return answer(*line, *["--dot"] * dot, "--", word, files=files)


def explore(a: Text | None, b: Text | None, word: str, *options: str, **start: Any) -> Told:
    """How the runs of a word end; `options` are more of `prefork explore`."""
    line, files = asked("explore", a, b, Start(**start))
    return answer(*line, *options, "--", word, files=files)


def certify(a: Text | None, b: Text | None, blocks: Text, *later: Text, **start: Any) -> Told:
    """The patterns that explain blocks, if these are a master's. Its first change went over to `b`, the next ones to the
    configurations in `later`, and all that follow to the last."""
    line, files = asked("certify", a, b, Start(**start))
    for number, text in enumerate(later, 2):
        line += ["--to", f"b{number}.toml"]
        files.append((f"b{number}.toml", text))
    return answer(*line, files=files, input=blocks)


def check(text: Text, name: str = "a.toml") -> Told:
    """Whether a configuration would be read."""
    return answer("check", name, files=[(name, text)])


def explain(code: str) -> Told:
    """What a code means."""
    return answer("explain", code)


def version() -> str:
    """The version of the program."""
    return answer("--version").output.strip()
