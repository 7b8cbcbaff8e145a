"""Files of variables: a line NAME=VALUE for each, as systemd has them in its EnvironmentFile."""
from .keys import RESERVED, VARIABLE


def variables_in(text: str) -> dict[str, str]:
    """The variables of a file. Raises ValueError with the line and what is wrong there; no value is said."""
    found = {}
    for number, line in enumerate(text.splitlines(), 1):
        line = line.strip().removeprefix("export ").lstrip()
        if not line or line.startswith(("#", ";")):
            continue
        name, equals, value = line.partition("=")
        name, value = name.strip(), value.strip()
        if not equals or not VARIABLE.fullmatch(name) or "\0" in value:
            raise ValueError(f"line {number}: NAME=VALUE is allowed, an empty line, and one that begins with #")
        if name.startswith(RESERVED):
            raise ValueError(f"line {number}: {name} is a variable that the service sets: another name is allowed")
        if value[:1] in ("'", '"'):
            if len(value) < 2 or value[-1] != value[0]:
                raise ValueError(f"line {number}: the quotation mark of {name} has no other one at the end of the line")
            value = value[1:-1]
        found[name] = value
    return found
