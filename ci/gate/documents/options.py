"""The options of the program: the same in --help, the man pages, FORMATS and the completion."""
import functools
import re
import subprocess
from collections.abc import Iterator

from gate.documents.pages import Tree, plain_man

OPTION = re.compile(r"--[a-z]+(?:-[a-z]+)*[0-9]?")
SECONDS = 180
# What every subcommand has, and no synopsis names.
COMMON = {"--help"}
# The man page of each subcommand, where it is not its own.
PAGES = {"adopt": "docs/prefork-supervise.1",
         **dict.fromkeys(("check", "child", "explain"), "docs/prefork.1")}

Options = dict[str, set[str]]


def help_of(program: str, *words: str) -> str:
    """What the program prints with --help."""
    command = [program, *words, "--help"]
    ended = subprocess.run(command, stdin=subprocess.DEVNULL, capture_output=True, text=True, timeout=SECONDS)
    return ended.stdout


@functools.cache
def by_help(program: str) -> Options:
    """The options of each subcommand, as --help lists them."""
    listed = re.search(r"^Commands:\n(.*?)\n\n", help_of(program), re.M | re.S)
    names = re.findall(r"^  ([a-z]+) ", listed[1], re.M) if listed else []
    lines = re.compile(rf"^ +(?:-\w, )?({OPTION.pattern})", re.M)
    return {name: set(lines.findall(help_of(program, name))) - COMMON for name in names}


def by_formats(tree: Tree) -> Options:
    """The options of each subcommand, in the first block of FORMATS."""
    lines = re.findall(r"^prefork ([a-z]+)(.*)$", tree.text("docs/FORMATS.md"), re.M)
    return {name: set(OPTION.findall(rest)) for name, rest in lines}


def by_man(tree: Tree, names: list[str]) -> Options:
    """The options of each subcommand, in the synopsis of its man page; one that the page does not explain is marked."""
    found: Options = {}
    for name in names:
        path = PAGES.get(name, f"docs/prefork-{name}.1")
        if (tree.root / path).exists():
            parts = re.split(r"^\.B prefork ", section(tree.text(path), "SYNOPSIS"), flags=re.M)[1:]
            own = set(OPTION.findall("\n".join(part for part in parts if part.split()[0] == name)))
            marked = {f"{option} without an explanation" for option in own - described(tree, path)}
            found[name] = own | marked
    return found


def section(text: str, title: str) -> str:
    """What is below a heading of a man page."""
    return plain_man(text).partition(f"\n.SH {title}\n")[2].partition("\n.SH ")[0]


def described(tree: Tree, path: str) -> set[str]:
    """The options that a man page explains, or sends the reader to prefork(1) for."""
    own = section(tree.text(path), "OPTIONS")
    if "has all of them" in own:
        own += section(tree.text("docs/prefork.1"), "OPTIONS")
    return set(OPTION.findall(own))


def by_completion(tree: Tree) -> Options:
    """The options of each subcommand in the completion for bash."""
    text = tree.text("completions/prefork.bash")
    lines = re.findall(r"^ +([a-z]+)\) options='([^']*)'", text, re.M)
    return {name: set(options.split()) - COMMON for name, options in lines}


def differences(place: str, wanted: Options, got: Options) -> Iterator[str]:
    """Where one list of options differs from that of --help."""
    for name in sorted(wanted | got):
        if name not in got:
            yield f"{place}: nothing of {name}"
        elif name not in wanted:
            yield f"{place}: {name} is no subcommand"
        else:
            for option in sorted(wanted[name] - got[name]):
                yield f"{place}: {name} lacks {option}"
            for option in sorted(got[name] - wanted[name]):
                yield f"{place}: {name} has no {option}"


def faults(tree: Tree) -> Iterator[str]:
    """Options that --help, the man pages, FORMATS and the completion do not share."""
    wanted = by_help(tree.program)
    if not wanted:
        yield f"{tree.program} --help lists no subcommand"
        return
    yield from differences("docs/FORMATS.md", wanted, by_formats(tree))
    yield from differences("the man pages", wanted, by_man(tree, list(wanted)))
    yield from differences("completions/prefork.bash", wanted, by_completion(tree))
    known = set().union(*wanted.values(), COMMON, {"--version"})
    for path, text in tree.man():
        for option in sorted(set(OPTION.findall(plain_man(text))) - known):
            yield f"{path}: {option} is no option"
