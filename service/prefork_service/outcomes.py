"""What is said of blocks to people."""
from .blocks import block_of
from .words import CHANGES

# The calls by which a worker or a master starts.
STARTS = ("fork", "await-ready", "spawn-master", "adopt")
# What its operator is told after an application that did not start.
OLD_SERVES = "the workers that run are of the version before. One that ends is started again from the files as they are " \
    "now, and fails as the reload did: put the old version back, or mend the new one and send HUP. --preload keeps the version " \
    "that runs in memory"

PRELOADER_SERVES = "the workers that run are of the version before. One that ends is forked again from the preloader that has " \
    "loaded that version, and only if the preloader has ended too, it is loaded from the files as they are then. To be rid of " \
    "that version, mend the new one and send HUP"
# What its operator is told that has taken away the last worker.
NOBODY_SERVES = "nobody serves: no worker is wanted, and connections wait until TTIN or HUP"


def is_broken(word: str, text: str) -> bool:
    """Whether a block says that a new version did not start, and that the old one runs."""
    block = block_of(text)
    has_failed = any(call.kind in STARTS and not call.is_plain for call in block.calls)
    return word in CHANGES and block.report.outcome == "rolled-back" and has_failed
