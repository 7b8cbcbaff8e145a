"""The names inside of the toolchain that the gate uses.

The toolchain promises none of them. `ci/test` asks for all of them before it does anything else: a newer kit that has
renamed one is told so by name, and not after half an hour by an error or by a check that no longer checks.
"""
from collections.abc import Iterator
from typing import Any

# Of the command `rt`, of its library, of a crate of that, and of the list of a crate's functions. What became of an edit
# has names in some kits alone (REFUSED, AT_LIMIT): others say only whether it was refused.
NAMES = {
    "rt": "KIT checked edits_of free main must_fail processors read_edit read_files rtlib unread",
    "rt.rtlib": "Crate PARTS STALE crates_below guarded lock sum_of text_of",
    "rt.rtlib.Crate": "below build_rlib count is_built stamp",
    "bodies": "Source named",
}


def missing(kit: Any) -> Iterator[str]:
    """The names that this kit has not."""
    for place, names in NAMES.items():
        thing = kit
        for part in place.split("."):
            thing = getattr(thing, part, None)
        yield from (f"{place}.{name}" for name in names.split() if not hasattr(thing, name))
