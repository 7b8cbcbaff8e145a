#!/usr/bin/env python3
"""A master that starts no workers, for tests of what is around it: it says a block for each word, and asks twice at
`USR2 attended`, as `prefork supervise --verbose` does. What it is told goes to the file `told`."""
import os
import sys

ASKED = "[INFO  prefork] asks {}: WINCH or QUIT goes on, HUP goes back\n"


def read() -> str:
    line = sys.stdin.readline().rstrip("\n")
    with open("told", "a") as file:
        file.write(f"{line}\n")
    return line


def say(block: str) -> None:
    sys.stdout.write(block)
    sys.stdout.flush()


def ask(question: int) -> bool:
    """Whether the upgrade goes on. In two pieces, as a pipe may have it."""
    text = ASKED.format(question)
    os.write(2, text[:30].encode())
    os.write(2, text[30:].encode())
    while (answer := read()) not in ("WINCH", "QUIT", "HUP"):
        pass
    return answer != "HUP"


def main() -> None:
    say("word tick 0\ndone cause none pid no-file\n")
    os.write(2, b"[INFO  prefork] tick 0: done\nprefork: a message\n")
    while word := read():
        report = "done cause none pid no-file"
        if word == "USR2 attended" and not (ask(1) and ask(2)):
            report = "rolled-back cause 1 pid no-file"
        say(f"word {word}\n{report}\n")
        os.write(2, f"[INFO  prefork] {word}: done\n".encode())
        if word == "QUIT":
            return


main()
