"""Mistakes with keys of `[service]`, with options of `prefork-ctl`, and with the program itself: what is written or typed, and
what has to be said."""

# Keys below the table, from line 5 on.
KEYS = (
    ("a command for questions that is no list, and its times", 'ask = "./look"\nask_after = -1\nask_within = 0\n', (
        'site.toml, line 5: service.ask is "./look": a list of texts: the command that answers questions, and its arguments is allowed',
        "site.toml, line 6: service.ask_after is -1: seconds from 0 to 86400 is allowed",
        "site.toml, line 7: service.ask_within is 0: seconds, more than 0 and at most 86400 is allowed",
    )),
    ("a command for questions that is missing", 'ask = ["./look", "-v"]\n', ("site.toml, line 5: service.ask can't be started: ", "look: No such file or directory")),
    ("memory and a time of requests that are out of range", 'hard_memory = "512"\nrequest_timeout = 0\n', (
        'site.toml, line 5: service.hard_memory is "512": a size from 1M to 1024T, such as 512M or 1.5G',
        "site.toml, line 6: service.request_timeout is 0: seconds, more than 0 and at most 86400 is allowed",
    )),
    ("a time of requests that are not of wsgi", "request_timeout = 5\n", (
        "site.toml, line 5: service.request_timeout is a key of wsgi or wsgi with preload, and the workers run a program: remove it",
    )),
    ("a time for questions without a command", "ask_after = 5\n", (
        'site.toml, line 5: service.ask_after is of a command that answers questions, and there is none: ask = ["COMMAND"] is wanted',
    )),
)
# What is typed after `prefork-serve`, and ends it with status 2.
OPTIONS = (
    ("--hard-memory 512MB site.toml -- true", "argument --hard-memory: it takes a size from 1M to 1024T, such as 512M or 1.5G"),
    ("--request-timeout 5 site.toml -- true", "--request-timeout is an option of --wsgi, and there is none"),
)
# What is typed after `prefork-ctl`.
QUESTIONS = (
    ("--ask ./nolook upgrade attended", "argument --ask: ./nolook: No such file or directory"),
    ("--ask true HUP", "--ask is an option of a word that asks: USR2 attended"),
    ("--after soon 'USR2 attended'", "argument --after: it takes seconds, at most 86400, not: soon"),
    ("--ask true --no-ask 'USR2 attended'", "--no-ask goes with no other option of a question"),
)
# Refusals as JSON.
FAULT = ('{"outcome":"fault","code":"config C4 workers"}', "prefork: config C4 workers")
REFUSED = ('"outcome":"refused","code":"W3"',)
# What is in the configuration, what the program is asked, its status, and what it says.
ASKED_SO = (
    ('workers = "2"\n', "check site.toml", 1, ('site.toml:1: C3 workers: a value is of the wrong kind (allowed: a whole number from 0 to 1024): workers = "2"',)),
    ("timeout = 0\n", "check --json site.toml", 1,
     ('"outcome":"refused","line":1,"code":"C4 timeout","message":"a number is out of range (allowed: a whole number from 1 to 86400): timeout = 0"',)),
    *((f'listeners = ["{address}"]\n', "check site.toml", 1, (f"site.toml:1: C5 0 A{rule}: a listener is not an address: ", f"(allowed: {allowed}", address))
      for address, rule, allowed in ((":8080", 2, "four numbers, as 127.0.0.1, or IPv6 in brackets, as [::1]"), ("[::1]", 3, "a whole number from 1 to 65535"))),
    *(("workers = 2000\n", f"{command} --json --from site.toml {word}", 1, FAULT)
      for command, word in (("explore", "HUP"), ("plan", "HUP"), ("enact", "HUP"), ("certify", ""))),
    *(("workers = 1024\n", f"{command} --json --from site.toml TTIN", 1, REFUSED) for command in ("explore", "plan", "enact")),
    ("workers = 0\n", "supervise --why --program ./missing --from site.toml", 0, ("prefork: the program of workers ./missing: it cannot be read: no such file",)),
    ('workers = 0\ncommand = ["./site.toml"]\n', "supervise --why --program prefork --from site.toml", 0,
     ("prefork: the program of workers ./site.toml: it is no file that may be executed",)),
)
