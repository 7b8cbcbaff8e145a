"""What a program of an operator can be told of."""

# The options that name a program, and when it is started.
EVENTS = {
    "on-done": "once a word was done",
    "on-rolled-back": "once a word was rolled back",
    "on-degraded": "once a word has left the service short",
    "on-short": "once fewer workers run than are wanted",
    "on-healed": "once as many workers run as are wanted again",
}
