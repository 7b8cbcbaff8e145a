"""What prefork-serve and its keeper tell each other: the first letter of a packet, which the keeper explains."""
import enum

# An address, and one with its options.
LONGEST_ADDRESS, LONGEST_TOLD = 200, 2048


class Packet(enum.StrEnum):
    """What a packet tells, by its first letter."""

    OPENED, CLOSED, REFUSED, SETTLED, ASKS, ANSWERS = "+", "-", "!", "=", "?", "."
    ENDS, LOST, DROPS, RENEWS, INHERITS, WANTS, FREED = "x", "~", "/", "%", "^", "*", "_"
