"""Configurations, as TOML."""
import json
import re
from typing import Any

# A key that needs no quotes.
BARE = re.compile(r"[A-Za-z0-9_-]+")


def toml(value: Any) -> str:
    """A value as a configuration has it: as in JSON, but for tables."""
    if isinstance(value, dict):
        return "{ " + ", ".join(f"{named(key)} = {toml(item)}" for key, item in value.items()) + " }"
    if isinstance(value, list):
        return "[" + ", ".join(toml(item) for item in value) + "]"
    return json.dumps(value)


def named(key: str) -> str:
    return key if BARE.fullmatch(key) else json.dumps(key)


def configuration(**settings: Any) -> str:
    """The text of a configuration with these settings."""
    return "".join(f"{key} = {toml(value)}\n" for key, value in settings.items())
