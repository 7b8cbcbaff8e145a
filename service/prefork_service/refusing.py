"""Why the program of a master refuses a configuration. It is a process that its caller waits for."""
import pathlib
import re
import subprocess
from typing import Any

from .folder import text_of
from .toml_lines import masked

# How long the master's program may take to say whether it reads a configuration.
REFUSAL_SECONDS = 10.0
# Lines of a refusal that begin to explain a fault, and the title of a code.
HEADING, CODE = re.compile(r"  (?:config|file|usage|[A-Z]\d+): "), re.compile(r"  [A-Z]\d+: (.*)")
# How the line begins that says what to write in place of an address.
WRITE = "Write "


def refusal_of(prefork: str, config: pathlib.Path) -> str | None:
    """Why the master refuses a configuration, or can't be asked, if that is so."""
    command = [prefork, "plan", "--why", "--from", str(config), "USR1"]
    streams: dict[str, Any] = {"stdin": subprocess.DEVNULL, "stdout": subprocess.DEVNULL, "stderr": subprocess.PIPE}
    try:
        found = subprocess.run(command, **streams, text=True, timeout=REFUSAL_SECONDS)
    except OSError as fault:
        return f"{prefork}: {fault.strerror}"
    except subprocess.TimeoutExpired:
        return f"{prefork}: it has not said in {REFUSAL_SECONDS:g} seconds whether it reads the configuration"
    if not found.returncode:
        return None
    try:
        return masked(found.stderr.strip(), text_of(config).decode(errors="replace"))
    except OSError:
        return str(found.stderr).strip()


def mistake_of(refusal: str) -> str:
    """What a refusal says of the file: the place, what is wrong there, and what to write. Of a code that is its title."""
    titles = [found[1] for found in map(CODE.fullmatch, refusal.splitlines()) if found]
    places = []
    for line in refusal.splitlines()[1:]:
        if not line.startswith("  ") or HEADING.match(line):
            break
        places.append(line.strip().removeprefix("--from "))
    faults = [line for line in places[1:] if not line.startswith(WRITE)]
    return ". ".join([": ".join([*places[:1], *(faults or titles[-1:])]), *(it for it in places[1:] if it not in faults)])


def refused(prefork: str, file: str) -> list[str]:
    """What is wrong with a configuration that a master has refused."""
    refusal = refusal_of(prefork, pathlib.Path(file))
    return [mistake_of(refusal)] if refusal else []


def refusal_shown(config: str, refusal: str) -> str:
    """A refusal of the master's program, shortened: the place, what is wrong there, and what is allowed."""
    mistake, lines = mistake_of(refusal), refusal.splitlines()
    if not mistake:
        return f"{config}: {refusal}"
    last = max((at for at, line in enumerate(lines) if CODE.match(line)), default=len(lines))
    return "\n".join([mistake, *(line for line in lines[last + 1 :] if line.startswith("    "))])
