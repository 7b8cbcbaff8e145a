#!/usr/bin/env python3
"""A master for tests of the service: it answers each word of its input with a block, and starts nothing.

    master.py plan|explore|certify ..     prints its arguments
    master.py supervise --help            prints what HELP has
    master.py supervise ..                blocks: of the file BLOCKS/WORD if there is one, or else a plain one

Before a block that has a file it says what the file BLOCKS/errors has, if there is one. If there is a file
BLOCKS/arguments, it writes its arguments there. If there is a file BLOCKS/dies, it ends at once. If there is a file
BLOCKS/adopt, it starts that as a new master at USR2, and goes back once that has ended. At the word that the file
BLOCKS/hangs has, it makes the file BLOCKS/is_held, and does not go on while that word is there.
"""
import os
import pathlib
import subprocess
import sys
import time

COUNT = int(os.environ.get("WORKERS", "2"))
PLACE = pathlib.Path(os.environ.get("BLOCKS", "/nowhere"))


def block_of(word: str) -> str:
    file = PLACE / word.split()[0]
    if file.exists() and (PLACE / "errors").exists():
        print((PLACE / "errors").read_text(), end="", file=sys.stderr, flush=True)
    if file.exists():
        return f"word {word}\n{file.read_text()}"
    census = f"1 m1 census 1.1 : counted 0-{COUNT - 1}"
    return f"word {word}\n{census}\ndone cause none pid no-file\n"


def upgrade() -> str:
    """The block of an upgrade whose new master ends."""
    subprocess.run(["prefork", "adopt"], executable=sys.executable, cwd=PLACE)
    return "word USR2\n1 m1 spawn-master 2 : spawned\n2 m2 adopt : master-gone\nrolled-back cause 2 pid no-file\n"


def note_workers() -> None:
    """Is the process of each worker: as many run as are counted."""
    place = pathlib.Path(os.environ.get("PREFORK_FOLDER", "/nowhere")) / "workers"
    for number in range(COUNT if place.exists() else 0):
        (place / f"1.1.{number}").write_text(f"{os.getpid()}\n")


def hang(word: str) -> None:
    """Does not go on with a word for as long as the test wants."""
    file = PLACE / "hangs"
    while file.exists() and file.read_text() == word:
        (PLACE / "is_held").touch()
        time.sleep(0.02)


def supervise() -> None:
    if (PLACE / "dies").exists():
        sys.exit(1)
    note_workers()
    if (PLACE / "arguments").exists():
        (PLACE / "arguments").write_text(" ".join(sys.argv[1:]))
    print(block_of("tick 0"), end="", flush=True)
    for line in sys.stdin:
        word = line.rstrip("\n")
        if word.startswith("tick "):
            for number in range(COUNT):
                print(f"word beat {number} {word.split()[1]}\nnothing")
        hang(word)
        is_upgrade = word == "USR2" and (PLACE / "adopt").exists()
        print(upgrade() if is_upgrade else block_of(word), end="", flush=True)
        if word in ("QUIT", "INT", "TERM"):
            return


if __name__ == "__main__":
    if sys.argv[1:] == ["supervise", "--help"]:
        print(os.environ.get("HELP", ""))
    elif sys.argv[1:2] == ["supervise"]:
        supervise()
    else:
        print(" ".join(sys.argv[1:]))
