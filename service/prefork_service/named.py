"""What a configuration says of its addresses and workers."""
import tomllib

# The timeout of a configuration that says none.
DEFAULT_TIMEOUT = 60


def groups_of(text: bytes) -> list[tuple[int, int]]:
    """The workers and the listeners of each group; none where the master is to refuse the configuration."""
    try:
        found = tomllib.loads(text.decode())
        groups = found.get("groups", [found])
        return [(int(group["workers"]), len(group["listeners"])) for group in groups]
    except (ValueError, KeyError, TypeError, RecursionError):
        return []


def addresses_of(text: bytes) -> list[str]:
    """The addresses of a configuration; none where the master is to refuse it."""
    try:
        found = tomllib.loads(text.decode())
        groups = found.get("groups", [found])
        return [str(address) for group in groups for address in group["listeners"]]
    except (ValueError, KeyError, TypeError, RecursionError):
        return []


def workers_in(text: bytes) -> int:
    """How many workers a configuration wants; 0 where the master is to refuse it."""
    try:
        found = tomllib.loads(text.decode())
        return sum(int(group.get("workers", 1)) for group in found.get("groups", [found]))
    except (ValueError, TypeError, AttributeError, RecursionError):
        return 0


def timeout_of(text: bytes) -> int:
    """After how many seconds without a beat a worker of a configuration is overdue."""
    try:
        found = tomllib.loads(text.decode()).get("timeout", DEFAULT_TIMEOUT)
    except (ValueError, RecursionError):
        return DEFAULT_TIMEOUT
    return found if isinstance(found, int) else DEFAULT_TIMEOUT
