"""In which line of a TOML text a key is, for people."""
import re

# The names by which a key is found.
Path = tuple[str, ...]
TOML_NAME = r"""(?:[A-Za-z0-9_-]+|"[^"\n]*"|'[^'\n]*')"""
TOML_NAMES = rf"{TOML_NAME}(?:\s*\.\s*{TOML_NAME})*"
HEADER, ENTRY, ONE = re.compile(rf"\s*\[\[?\s*({TOML_NAMES})\s*\]\]?"), re.compile(rf"\s*({TOML_NAMES})\s*="), re.compile(TOML_NAME)


def names_in(text: str) -> Path:
    """The names of a key with dots."""
    return tuple(name.strip("\"'") for name in ONE.findall(text))


def line_of(text: str, path: Path) -> int:
    """The line, counted from 1, of the key with this path; that of what it is in, where it has no line of its own; and 0
    where that is missing."""
    lines, best, depth = text.splitlines(), 0, 0
    table: Path = ()
    for number, line in enumerate(lines, 1):
        if header := HEADER.match(line):
            table = full = names_in(header[1])
        elif entry := ENTRY.match(line):
            full = (*table, *names_in(entry[1]))
        else:
            continue
        if len(full) > depth and full == path[: len(full)]:
            best, depth = number, len(full)
    return within(lines, best, path[depth:]) if best and depth < len(path) else best


def within(lines: list[str], start: int, names: Path) -> int:
    """The line of the last of some names in a value that begins in a line and may have more of them."""
    name = re.compile(rf"""(?<![\w-])["']?{re.escape(names[-1])}["']?\s*=""")
    for number, line in enumerate(lines[start - 1 :], start):
        if number > start and (HEADER.match(line) or ENTRY.match(line)):
            break
        if name.search(line):
            return number
    return start


# A line of a refusal that shows one of the file: its number, and what it has.
SHOWN = re.compile(r"^(  .*, line (\d+): )(.*)$", re.M)


def masked(refusal: str, text: str) -> str:
    """A refusal without what a line of the table `service` sets: it may be a secret."""
    lines = text.splitlines()

    def hide(found: re.Match[str]) -> str:
        at = int(found[2]) - 1
        is_own = table_at(lines, at)[:1] == ("service",) or names_in(lines[at].partition("=")[0])[:1] == ("service",) if at < len(lines) else True
        name, equals, _ = found[3].partition("=")
        return str(found[0]) if not is_own or HEADER.match(found[3]) else f"{found[1]}{name}{equals} .." if equals else f"{found[1]}.."

    return SHOWN.sub(hide, refusal)


def table_at(lines: list[str], at: int) -> Path:
    """The table in which a line is."""
    return next((names_in(header[1]) for line in reversed(lines[: at + 1]) if (header := HEADER.match(line))), ())
