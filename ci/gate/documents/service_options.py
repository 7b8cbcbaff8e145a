"""The options of the service's programs: the same in --help, the man page and the completions of each."""
import functools
import re
import subprocess
import sys
from collections.abc import Iterator

from gate.documents.options import COMMON, OPTION, SECONDS
from gate.documents.options import by_help as by_help_of_master
from gate.documents.pages import Tree, plain_man

# A line of a man page about an option.
EXPLAINED = re.compile(rf'^\.BI?R? "?({OPTION.pattern})', re.M)
COMPLETION = "service/completions/prefork-service.bash"
# Completions for other shells, where a program has them: what names an option in a file of each.
IN_FISH, IN_ZSH = r"^complete -c {name} (?:.* )?-l ([a-z][a-z0-9-]*)", r"^ *'(?:\*|\([^)]*\))?--([a-z][a-z0-9-]*)[=+-]*\["
OTHERS = {"service/completions/*.fish": IN_FISH, "service/completions/_*": IN_ZSH}
# The service starts them: nobody types their names.
NOT_COMPLETED = {"prefork-keeper", "prefork-wsgi"}


@functools.cache
def by_help(program: str) -> frozenset[str]:
    """The options of a program, as --help lists them."""
    command = [sys.executable, "-B", program, "--help"]
    ended = subprocess.run(command, stdin=subprocess.DEVNULL, capture_output=True, text=True, timeout=SECONDS)
    listed = re.findall(rf"^ +(?:-\w, )?({OPTION.pattern})", ended.stdout, re.M)
    return frozenset(listed) - COMMON


def by_completion(text: str, name: str) -> frozenset[str]:
    """The options of a program in the completion for bash."""
    found = re.search(rf"^ +{name}\)\s(?:(?!;;).)*?options='([^']*)'", text, re.M | re.S)
    return frozenset(found[1].split()) - COMMON if found else frozenset()


def in_other_shells(tree: Tree, name: str) -> Iterator[tuple[str, frozenset[str]]]:
    """The completions of a program for fish and zsh, each with the options that it has."""
    for pattern, found in OTHERS.items():
        for path in sorted(str(file.relative_to(tree.root)) for file in tree.root.glob(pattern)):
            text = tree.text(path)
            if re.search(rf"^complete -c {name} |^#compdef (?:.* )?{name}(?: |$)", text, re.M):
                # (a file for several programs has a part for each)
                part = re.search(rf"^ +{name}\)$(.*?)^ +;;$", text, re.M | re.S)
                text = part[1] if part else text
                listed = re.findall(found.format(name=name) if "{name}" in found else found, text, re.M)
                yield path, frozenset(f"--{option}" for option in listed) - COMMON


def completions_of(tree: Tree, name: str) -> Iterator[tuple[str, frozenset[str]]]:
    """The completions of a program, each with the options that it has."""
    yield COMPLETION, by_completion(tree.text(COMPLETION), name)
    yield from in_other_shells(tree, name)


def faults(tree: Tree) -> Iterator[str]:
    """Options that --help, the man page and the completions of a program do not share."""
    programs = {path.name: by_help(str(path)) for path in sorted(tree.root.glob("service/bin/*"))}
    # A page may have those of the programs that its program starts.
    known = {"--help"}.union(*programs.values(), *by_help_of_master(tree.program).values())
    for name, options in programs.items():
        page = f"service/man/{name}.1"
        text = plain_man(tree.text(page))
        said, explained = set(OPTION.findall(text)), set(EXPLAINED.findall(text))
        if not options:
            yield f"service/bin/{name} --help lists no option"
        yield from (f"{page}: {option} is not explained" for option in sorted(options - explained))
        yield from (f"{page}: {option} is no option" for option in sorted(said - known))
        for path, completed in completions_of(tree, name) if name not in NOT_COMPLETED else ():
            yield from (f"{path}: {name} lacks {option}" for option in sorted(options - completed))
            yield from (f"{path}: {name} has no {option}" for option in sorted(completed - options))
