"""Names in back-ticks: each is in the tree, or on a short list with the reason why not."""
import fnmatch
import functools
import os
import pathlib
import re
from collections.abc import Iterator

from gate.documents.pages import SERVICE, Tree, line_of, without_blocks

# Where names come from. Pages themselves are no source of names, and nor is this check.
SOURCES = ("crates.txt", "try", "prefork", "install", "package", "Makefile", ".githooks/*", "page/*", "library/*",
           "crates/*/src/**/*", "crates/*/specs/**/*",
           "crates/*/proofs/**/*", "ci/*", "ci/gate/*.py", "ci/web/*", "ci/shipping/*", "bench/*", "examples/*",
           "completions/*", "service/bin/*", "service/native/*", "service/prefork_service/*.py",
           "service/double/*", "service/examples/*", "service/units/*", "fleet/**/*", "service/tests/**/*.py",
           "service/build", "service/install", "service/man/*", "service/containers/*", "tests/cases/**/args",
           "tests/cases/**/stdin", "tests/cases/**/stdout", "tests/cases/**/stderr", "tests/faults/*",
           "tests/children/**/*")
WORD = re.compile(r"[A-Za-z_][A-Za-z0-9_]*(?:-[A-Za-z0-9_]+)*")
SPAN = re.compile(r"`([^`\n]+)`")
# What looks like a file or a folder.
PATH = re.compile(r"\.{0,2}/?[\w.*-]+(?:/[\w.*-]+)+/?|[\w*-]+\.(?:md|rt|antt|py|toml|svg|edit|sh|yml)")
# A place-holder: capitals, and one small letter before numbers.
HOLDER = re.compile(r"[A-Z][A-Z0-9_.-]*|[a-z]?[IJKN](?:\.C(?:\.K)?)?|[a-zA-Z]")

# Names that are not in the tree, and why pages have them.
ELSEWHERE: dict[str, str] = {
    **dict.fromkeys(("kill", "ulimit", "systemctl", "curl", "dup", "accept", "listen", "shutdown", "poll", "epoll",
                     "select", "nofile", "man", "dot", "cc", "mv", "tee"), "commands and calls of the system"),
    **dict.fromkeys(("gunicorn", "uvicorn", "puma", "unicorn", "node", "nginx", "server.py", "conf.py", "pidfile",
                     "_temp_path", "cluster", "process_control_timeout", "fpm.toml", "syslog", "daemonize", "mysite",
                     "venv/bin/python", "Shutdown"), "other servers, their files and settings"),
    **dict.fromkeys(("urls.py", "settings.py", "app.py", "manage.py", "collectstatic", "max_connections", "db", "close_all"),
                    "Django and PostgreSQL"),
    **dict.fromkeys(("graphviz", "ansible-core", "pip", "journalctl", "dumb-init", "valgrind", "callgrind",
                     "PREFIX/lib/systemd/system"),
                    "packages and programs of the system"),
    **dict.fromkeys(("ContainerStopSignals", "stopSignal", "linux", "startupProbe", "kubectl", "rollout"),
                    "Kubernetes"),
    **dict.fromkeys(("rt", "doc", "ci", "check", "must-fail", "try", "run", "lib", "version", "rattle-kit-13f", "logic",
                     "dac8208d650f15bf", "PhantomData", "inline", "never", "Read", "Write"), "the toolchain"),
    **dict.fromkeys(("0.0.0.0", "127.0.0.1"), "addresses"),
    "config.toml": "a file of a running service",
    "share/prefork/page": "where ./install copies the page",
}
# Folders of a running service: a file in one is there if its words are in the sources.
RUNNING = ("run/", "PREFORK_FOLDER/")


@functools.cache
def vocabulary(root: pathlib.Path) -> frozenset[str]:
    """All words of the sources, and the names of files and folders."""
    found: set[str] = set()
    for pattern in SOURCES:
        for path in root.glob(pattern):
            if "out" in path.relative_to(root).parts or path.suffix == ".md" or not path.is_file():
                continue
            found.update((path.name, path.stem, *path.relative_to(root).parts))
            found.update(WORD.findall(path.read_text(errors="replace")))
    return frozenset(found | {part for word in found for part in word.split("-")})


@functools.cache
def endings(root: pathlib.Path) -> frozenset[str]:
    """All files and folders of the tree, each by its path and by each end of that."""
    found: set[str] = set()
    for folder, folders, files in os.walk(root):
        folders[:] = [name for name in folders if name not in (".git", "out", "__pycache__")]
        for name in (*folders, *files):
            parts = pathlib.Path(folder, name).relative_to(root).parts
            found.update("/".join(parts[at:]) for at in range(len(parts)))
    return frozenset(found)


def is_there(root: pathlib.Path, page: str, path: str) -> bool:
    """Whether a path is one of this tree, or the end of one. Capitals and stars stand for any name."""
    path = path.removeprefix("./").rstrip("/")
    if path.startswith("/"):
        return True
    if path.startswith(RUNNING):
        return all(word in vocabulary(root) for word in WORD.findall(path))
    if ".." in path.split("/"):
        return ((root / page).parent / path).exists()
    if path in endings(root) or any(f"{path}.{part}" in endings(root) for part in (1, 5)):
        return True
    pattern = re.sub(r"\b(?:NAME|CRATE)\b", "*", path)
    return "*" in pattern and any(fnmatch.fnmatchcase(it, pattern) for it in endings(root))


def missing(root: pathlib.Path, page: str, span: str) -> Iterator[str]:
    """The names of one text in back-ticks that are nowhere."""
    rest = span
    for path in PATH.findall(span):
        rest = rest.replace(path, " ")
        if path not in ELSEWHERE and not path[0].isdigit() and not is_there(root, page, path):
            yield path
    words = vocabulary(root)
    for word in WORD.findall(rest):
        if word in words or word in ELSEWHERE or HOLDER.fullmatch(word):
            continue
        if word.endswith("_") and any(it.startswith(word) for it in words):
            continue
        if not all(part in words or part in ELSEWHERE or HOLDER.fullmatch(part) for part in word.split("-")):
            yield word


def faults(tree: Tree) -> Iterator[str]:
    """Names in back-ticks that are not in the tree."""
    for path, text in tree.markdown(*SERVICE):
        prose = without_blocks(text)
        for span in SPAN.finditer(prose):
            for name in missing(tree.root, path, span[1]):
                yield f"{path}:{line_of(prose, span.start())}: `{name}` is not in the tree"
