"""Modules of Python that others import, and that a core and prefork-watch hardly use: each is loaded once something of it is
used. They would take a tenth of the memory of both."""
import importlib
import sys
import types
from typing import Any

# dataclasses would look at classes without a text by `inspect`, subprocess at texts by `locale`, shutil at archives, and
# urllib.parse at addresses of version 6.
SELDOM_USED = ("inspect", "locale", "bz2", "lzma", "ipaddress")


class Later(types.ModuleType):
    """Is in place of a module until something of it is used."""

    def __getattr__(self, name: str) -> Any:
        if sys.modules.get(self.__name__) is self:
            del sys.modules[self.__name__]
        return getattr(importlib.import_module(self.__name__), name)


def put_off() -> None:
    """Called before anything imports them."""
    for name in SELDOM_USED:
        sys.modules.setdefault(name, Later(name))
