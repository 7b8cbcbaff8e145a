"""The limits of a master, as its options say them."""

ANSWER_WITHIN, READY_WITHIN = "--answer-within", "--ready-within"
# Eight times as long as for an answer the master gives a worker to be ready, and to end once it was told to quit.
TIMES = 8
# An adapter ends its program before that: it knows more. It has so long if no option says it, and so much less.
ADAPTER_SECONDS, EARLIER_SECONDS = 30.0, 30.0


def end_seconds(limits: list[str]) -> int:
    """How long a worker may take to end that was told to quit; 0 is without a limit."""
    if READY_WITHIN in limits:
        return int(limits[limits.index(READY_WITHIN) + 1])
    return TIMES * int(limits[1]) if limits else 0
