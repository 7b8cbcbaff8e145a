"""Sizes of memory, as people write them."""
import re

SIZE_UNITS = {"": 1, "K": 1 << 10, "M": 1 << 20, "G": 1 << 30, "T": 1 << 40}
SIZE = re.compile(r"(\d{1,15}(?:\.\d{1,6})?)([KMGT]?)")
# Less than this no worker has, and more no machine.
LEAST, MOST = 1 << 20, 1 << 50
ALLOWED = "a size from 1M to 1024T, such as 512M or 1.5G (1K is 1,024 bytes)"


def bytes_of(value: object) -> int | None:
    """The bytes of a size, which is a number or a text; nothing if it is invalid."""
    found = SIZE.fullmatch(str(value)) if isinstance(value, (int, str)) and not isinstance(value, bool) else None
    size = int(float(found[1]) * SIZE_UNITS[found[2]]) if found else 0
    return size if LEAST <= size <= MOST else None


def shown(size: float) -> str:
    """A size for people."""
    unit = max((unit for unit, one in SIZE_UNITS.items() if size >= one), key=lambda unit: SIZE_UNITS[unit], default="")
    return f"{size / SIZE_UNITS[unit]:.1f}".removesuffix(".0") + unit
