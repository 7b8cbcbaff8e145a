"""How far a word is, as its sender sees it at a terminal, and everybody else meanwhile."""
import os
import pty
import re
import subprocess
import threading
from typing import Any

from gate.waiting import SECONDS, until
from web.crowds import MANY
from web.site import BIN, SERVICE, Scenario, Site
from web.starts import status

# How many different lines a terminal shows at least, and what each is.
LINES = 10
LINE = re.compile(rf"HUP, for (\d+) s: (\d+) of {MANY} new and (\d+) old workers run; (.+), for \d+ s")


class Terminal:
    """A pseudo-terminal, and what has been shown there."""

    def __init__(self) -> None:
        self.ours, self.theirs = pty.openpty()
        self.said = b""
        self.thread = threading.Thread(target=self.hear, daemon=True)
        self.thread.start()

    def hear(self) -> None:
        try:
            while got := os.read(self.ours, 1 << 16):
                self.said += got
        except OSError:
            # Nobody has it open any more.
            pass

    def lines(self) -> list[str]:
        """The lines that were shown one after another in the place of the one before."""
        return [line for line in self.said.decode().split("\r\033[K") if line]

    def close(self) -> None:
        os.close(self.theirs)
        self.thread.join(SECONDS)
        os.close(self.ours)


def held_page(site: Site) -> list[str]:
    """A program in C that is not there yet as long as a file is."""
    page, held = site.home / "page", site.home / "held"
    subprocess.run(["cc", "-std=gnu11", "-O2", "-o", page, SERVICE / "tests" / "programs" / "page.c"], check=True)
    held.write_text(f'#!/bin/sh\nwhile [ -e "{site.hold}" ]; do sleep 1; done\nexec "{page}"\n')
    held.chmod(0o755)
    return [str(held)]


def a_reload_is_followed(site: Site) -> None:
    """A reload of 200 workers, which are not ready before ten different lines were shown at the terminal of its sender. In
    them the new workers never become fewer, and at last all run; and so says the status."""
    site.program, site.options = held_page(site), ("--ready-within", "300", "--answer-within", "300")
    site.begin(listeners=[site.first], workers=MANY)
    site.hold.touch()
    terminal = Terminal()
    command: list[Any] = [BIN / "prefork-ctl", "--folder", site.run, "HUP"]
    sent = subprocess.Popen(command, stdout=subprocess.PIPE, stderr=terminal.theirs, text=True, env=site.environment)
    try:
        until("ten lines, of all workers at last", lambda: len({*terminal.lines()}) >= LINES and f"{MANY} of {MANY} new" in terminal.lines()[-1])
        far = status(site)["progress"]
        site.check(f"the status says {far}", (far["new"], far["old"], far["wanted"]) == (MANY, MANY, MANY))
        site.check(f"the status does not say so to people: {far['line']}", LINE.fullmatch(far["line"]))
        site.hold.unlink()
        block = sent.communicate(timeout=SECONDS)[0]
    finally:
        sent.kill()
        sent.wait()
        terminal.close()
    site.check(f"HUP: {block[-300:]}", "\ndone " in block and sent.returncode == 0)
    found = [LINE.fullmatch(line) for line in terminal.lines()]
    shown = [(int(line[1]), int(line[2])) for line in found if line]
    site.check(f"lines of another form: {terminal.lines()}", len(shown) >= LINES)
    site.check(f"the new workers become fewer: {shown}", shown == sorted(shown))
    site.end("1")


SCENARIOS: tuple[Scenario, ...] = (a_reload_is_followed,)
