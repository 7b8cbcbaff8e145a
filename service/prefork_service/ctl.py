"""prefork-ctl [--folder F] [--json] [WORD]
prefork-ctl [--folder F] [--json] [--ask COMMAND | --no-ask] [--after SECONDS] [--ask-within SECONDS] "USR2 attended"
prefork-ctl [--folder F] [--json] [--wait STATE] [--seconds N] status
prefork-ctl [--folder F] tick | top
prefork-ctl [--folder F] [--json] try HUP
prefork-ctl [--folder F] [--json] plan WORD
prefork-ctl [--folder F] [--json] [--events K] [--forbid degraded] [--require done] [--least N] explore WORD
prefork-ctl [--folder F] [--records FOLDER] [--prefork PROGRAM] [--json] certify

Sends a word to the service in the folder F (`run`, or that of the only unit): HUP, USR1, USR2, "USR2 attended", WINCH,
TTIN, TTOU, QUIT, INT or TERM, in capitals or not; `reload`, `upgrade`, `log-rotate` and `stop` are HUP, USR2, USR1 and
QUIT. It waits for what comes of it, prints that block and, on standard error, why calls of it failed and what runs now.
Meanwhile it shows for how long, how many new and old workers run, what is waited for, and for how long: at a terminal in a
line that moves, elsewhere in one each ten seconds.
It ends with the status of the report:

    0   done, or nothing was asked for
    1   refused or lost, or there is no service
    2   not a control word
    3   rolled back: the old service runs
    4   degraded: a service runs with fewer workers than it should

"USR2 attended" is an upgrade that asks twice: while the old and the new workers serve, and once the new ones serve
alone. `go` goes on and `back` goes back; if nothing is asked, they are refused as not-asked. Without a word prefork-ctl
prints whether the service asks, which question, and what to look at.

With --ask COMMAND a command answers each question: it runs once the question was asked for --after SECONDS (10), with the
processes and addresses of both generations in its environment and on its input. Its status 0 is `go`, and any other is
`back`; so is a command that can't be started, or that takes longer than --ask-within SECONDS (60). If an operator answers by
hand before, that counts. After ^C the question is left to you. SIGTERM and SIGHUP let it go back. See prefork-ctl(1).

`status` prints who runs: addresses, workers with their processes, ages and last beats, the masters and the keeper, the
last word, its report and why it went wrong, and what is being done now.

With --wait STATE it asks until the service is in that state (serves, changes, short or stopped), for N seconds at most
(30), and ends with 0 then, or with 1. A service that has ended is stopped.

`tick` has the master look for missing workers now, and tries those again that have failed to start.

`try HUP` starts one worker of the next version, away from the sockets of the service, waits until it is ready, and ends it.
The status is 0 if it was ready, and 3 if not. It says how long that took and how much memory the worker had, or why.

`top` shows the workers with their part of a processor and their memory (PSS), and the queues of the addresses, each second
up to ^C; once where it is no terminal.

`plan` and `explore` print what a word would do to the service as it runs now, with the configuration that its file has
now; nothing is done. The status is that of `prefork plan` and `prefork explore`.

`certify` compares the records with plans and model, master by master, and says from where on. It needs no service that
runs. The status is 0 if all that could be compared is accepted, 5 if a block is not, and 1 if nothing was compared.

With --json all of them print JSON.
"""
import argparse
import contextlib
import errno
import json
import pathlib
import socket
import subprocess
import sys
import time
from collections.abc import Callable, Iterator
from typing import Any

from . import VERSION, answering
from .answering import Answering, Reached
from .blocks import ends_block, report_of
from .certifying import certify
from .errors import take_standard
from .finding import COMMANDS, Unnamed, folder_of, not_known, word_of
from .folder import content_of
from .following import Follower
from .guarding import OutputFault, complain, guarded, put
from .questions import STATE
from .rehearsing import rehearsal
from .state import MEANINGS, STOPPED
from .status import shown, shown_brief
from .top import show
from .words import BRIEF, NOTE, STATUS, TOP, TRY, WORDS

# How long a status may take, and how long is waited for the reasons of a word whose block has come.
STATUS_SECONDS, NOTES_SECONDS, LONGEST_ANSWER = 20.0, 15.0, 65536
# How long a service that starts may take until it listens, when that is said, and how often it is looked.
CTL_START_SECONDS, CTL_TELL_SECONDS, CTL_PAUSE_SECONDS = 60.0, 1.0, 0.02
ENDED = "the service has ended before it answered"
ONLY_BRIEF = "this is the status in short: prefork-watch, which tells it in full, does not answer just now"
STATUSES = {"failed": 3, "done": 0, "nothing": 0, "answered": 0, "rolled-back": 3, "degraded": 4, "unread": 2}


def asked(
    folder: str, word: str, seconds: float | None = None, say: Callable[[str], None] = complain, answers: Answering | None = None,
) -> tuple[str, str]:
    """What comes of a word, and what is to be said of it to people. A question that is asked before that is said at
    once, and perhaps answered. Once the block is there, its reasons are waited for no longer than a moment."""
    block, notes = "", ""
    with connected(pathlib.Path(folder), say) as service:
        service.settimeout(seconds)
        service.sendall(f"{word}\n".encode())
        with contextlib.suppress(TimeoutError, ConnectionResetError):
            for line in lines_from(service):
                if line.startswith("asks ") and word != STATE:
                    say(f"it {line.rstrip()}")
                    if answers:
                        answers.begin(line)
                elif line.startswith(NOTE):
                    notes += f"prefork-ctl: {line.removeprefix(NOTE)}"
                else:
                    block += line
                    if ends_block(line):
                        service.settimeout(NOTES_SECONDS)
                        if answers:
                            answers.finish()
    return block, notes


def connected(folder: pathlib.Path, say: Callable[[str], None]) -> socket.socket:
    """A connection to the service. One that starts, and does not listen yet, is waited for. Raises OSError."""
    deadline, is_told = time.monotonic() + CTL_START_SECONDS, False
    while True:
        service = socket.socket(socket.AF_UNIX)
        try:
            service.connect(str(folder / "ctl.sock"))
            return service
        except OSError as fault:
            service.close()
            is_early = fault.errno in (errno.ENOENT, errno.ECONNREFUSED) and is_starting(folder)
            if not is_early or time.monotonic() > deadline:
                raise
        if not is_told and time.monotonic() > deadline - CTL_START_SECONDS + CTL_TELL_SECONDS:
            say("the service is starting")
            is_told = True
        time.sleep(CTL_PAUSE_SECONDS)


def is_starting(folder: pathlib.Path) -> bool:
    """Whether the process that has noted its number in the folder runs, and is a service."""
    number = (content_of(folder / "serve.pid") or b"").strip().decode("latin-1")
    return number.isdigit() and content_of(pathlib.Path("/proc") / number / "comm") == b"prefork-serve\n"


def lines_from(service: socket.socket) -> Iterator[str]:
    """The lines that a service answers, as far as they are whole."""
    unread = b""
    while got := service.recv(LONGEST_ANSWER):
        *lines, unread = (unread + got).split(b"\n")
        yield from (f"{line.decode(errors='replace')}\n" for line in lines)


def status_of(folder: str) -> dict[str, Any]:
    """The status of a service; in short, where the process does not answer that tells it in full."""
    for word in (STATUS, BRIEF):
        block = asked(folder, word, STATUS_SECONDS)[0]
        if block:
            status: dict[str, Any] = json.loads(block)
            return status
    raise ConnectionError(errno.ECONNRESET, ENDED)


def reached(folder: str) -> Reached:
    """A service, for what answers its questions."""
    return Reached(
        lambda: dict(json.loads(asked(folder, BRIEF, STATUS_SECONDS)[0] or "{}")), lambda: status_of(folder), lambda text: asked(folder, text, STATUS_SECONDS)[0],
    )


def arguments() -> argparse.Namespace:
    parser = argparse.ArgumentParser(
        prog="prefork-ctl", description="Sends a word to a service, and prints what came of it."
    )
    parser.add_argument("--version", action="version", version=f"prefork-ctl {VERSION}")
    parser.add_argument("--folder", metavar="F", help="the folder of the service, or prefork@NAME (run)")
    words = "status, top, tick, try HUP, HUP, USR1, USR2, 'USR2 attended', WINCH, TTIN, TTOU, QUIT, INT or TERM; go or back while it asks; reload, upgrade, log-rotate, stop; " \
        "plan WORD, explore WORD, certify; without a word it prints whether it asks"
    parser.add_argument("word", nargs="*", metavar="WORD", help=words)
    parser.add_argument("--json", action="store_true", help="print as JSON")
    answering.add_options(parser)
    add_options_of_explore(parser)
    records = "of certify: where the records are (those of the service)"
    parser.add_argument("--records", metavar="FOLDER", help=records)
    program = "of certify: the program of the master (that of the service, or prefork on the path)"
    parser.add_argument("--prefork", metavar="PROGRAM", help=program)
    parser.add_argument("--wait", choices=list(MEANINGS), help="of status: ask until the service is in this state")
    parser.add_argument("--seconds", type=float, metavar="N", help="of status --wait: for how long at most (30)")
    given = parser.parse_args()
    given.word = words_of(given.word)
    if (given.wait and given.word != [STATUS]) or (given.seconds is not None and not given.wait):
        parser.error("--wait is an option of status, and --seconds of --wait")
    if given.word[:1] != ["explore"] and options_of_explore(given):
        parser.error(f"{options_of_explore(given)[0]} is an option of explore")
    if given.word[:1] in (["plan"], ["explore"]) and " ".join(given.word[1:]) not in WORDS:
        parser.error(f"{given.word[0]} takes a word: {', '.join(WORDS)}")
    if given.word[:1] == ["try"] and " ".join(given.word) != TRY:
        parser.error("try takes the word HUP")
    if fault := answering.fault_of_options(given):
        parser.error(fault)
    return given


def words_of(words: list[str]) -> list[str]:
    """The words that are meant."""
    if words[:1] in (["plan"], ["explore"]):
        return [words[0], *word_of(" ".join(words[1:])).split(" ")] if words[1:] else words
    text = " ".join(words)
    if words[:1] == ["try"]:
        return ["try", *word_of(" ".join(words[1:])).split(" ")]
    return [text.lower()] if text.lower() in COMMANDS else word_of(text).split(" ") if words else words


def add_options_of_explore(parser: argparse.ArgumentParser) -> None:
    parser.add_argument("--events", metavar="K", help="of explore: at most K events in a run, 1 or 2 (1)")
    forbid = "of explore: end with status 4 if a run ends degraded"
    parser.add_argument("--forbid", choices=["degraded"], help=forbid)
    parser.add_argument("--require", choices=["done"], help="of explore: end with status 6 if no run is done")
    least = "of explore: end with status 4 if an address that stays has fewer ready workers than N at any moment"
    parser.add_argument("--least", metavar="N", help=least)


def options_of_explore(given: argparse.Namespace) -> list[str]:
    """The options of explore that were given, with their values."""
    values = {"--events": given.events, "--forbid": given.forbid, "--require": given.require, "--least": given.least}
    return [word for name, value in values.items() if value for word in (name, value)]


def main() -> int:
    """Whatever happens ends with a status, and with a line that says why."""
    take_standard()
    return guarded(control)


def control() -> int:
    given = arguments()
    try:
        given.folder = folder_of(given.folder)
        if given.wait:
            return wait_for(given)
        if given.word == [TOP]:
            return show(lambda: whole(status_of(given.folder)))
        if given.word == [STATUS]:
            return tell_status(given)
        if given.word == ["certify"]:
            return certify_records(given)
        if given.word[:1] in (["plan"], ["explore"]):
            return rehearse(given)
        return tell(given, " ".join(given.word) or STATE)
    except Unnamed as fault:
        complain(str(fault))
    except OutputFault:
        raise
    except OSError as fault:
        hint = "" if isinstance(fault, PermissionError) else ". Name its folder: --folder F, or --folder prefork@NAME"
        complain(f"no service in {given.folder}: {fault.strerror or fault}{hint}")
    return 1


def whole(status: dict[str, Any]) -> dict[str, Any]:
    """A status that is not told in short."""
    if status.get("brief"):
        raise ConnectionError(errno.EAGAIN, ONLY_BRIEF)
    return status


def wait_for(given: argparse.Namespace) -> int:
    """Asks for the status until it is in a state, and prints the last one."""
    until, status = time.monotonic() + (30.0 if given.seconds is None else given.seconds), dict[str, Any]()
    while True:
        with contextlib.suppress(OSError, ValueError):
            status = status_of(given.folder)
        found = status.get("state", STOPPED)
        if found == given.wait or time.monotonic() >= until:
            break
        status = {}
        time.sleep(0.1)
    text = text_of(given, status) if status else f"{STOPPED}: no service in {given.folder}\n"
    put(text)
    return 0 if found == given.wait else 1


def text_of(given: argparse.Namespace, status: dict[str, Any]) -> str:
    if given.json:
        return json.dumps(status) + "\n"
    return shown_brief(status) if status.get("brief") else shown(status)


def tell_status(given: argparse.Namespace) -> int:
    """Prints the status of a service."""
    status = status_of(given.folder)
    put(text_of(given, status))
    if status.get("brief"):
        complain(ONLY_BRIEF)
    return 0


def tell(given: argparse.Namespace, word: str) -> int:
    """Tells the service a word, and prints what came of it."""
    block, notes = followed(given, word) if word in WORDS else asked(given.folder, word)
    if not block.strip():
        complain(ENDED)
        return 1
    report = block.splitlines()[-1]
    outcome = report_of(report).outcome
    status = 0 if word == STATE else STATUSES.get(outcome, 1)
    if outcome == "unread":
        notes = f"{notes.rstrip()}. {not_known(word)}\n"
    # (the status is that of the word, also where its block can't be written)
    put(as_json(block, notes, status) if given.json else block, status)
    if not given.json:
        for line in notes.splitlines():
            complain(line.removeprefix("prefork-ctl: "))
    return status


def followed(given: argparse.Namespace, word: str) -> tuple[str, str]:
    """The same, while it is shown how far the word is."""
    with Follower(lambda: status_of(given.folder), sys.stderr) as follower:
        def say(text: str) -> None:
            follower.clear()
            complain(text)
        if not answering.asks(word):
            return asked(given.folder, word, say=say)
        service = reached(given.folder)
        ask = answering.ask_of(given, service.brief().get("ask"))
        if not ask and (given.after is not None or given.ask_within is not None):
            say(answering.NO_COMMAND)
        with Answering(word, ask, service, say) as answers:
            return asked(given.folder, word, say=say, answers=answers)


def as_json(block: str, notes: str, status: int) -> str:
    """What came of a word, as JSON."""
    *lines, report = block.splitlines()
    told = [line.removeprefix("prefork-ctl: ") for line in notes.splitlines()]
    return json.dumps({"status": status, "report": report, "lines": lines, "notes": told}) + "\n"


def rehearse(given: argparse.Namespace) -> int:
    """Prints what a word would do to the service as it runs now."""
    status = whole(status_of(given.folder))
    kind, word = given.word[0], " ".join(given.word[1:])
    command = rehearsal(kind, word, status, options_of_explore(given))
    try:
        found = subprocess.run(command, capture_output=True, text=True, errors="replace")
    except OSError as fault:
        complain(f"{command[0]}: {fault.strerror}")
        return 1
    if given.json:
        said = {"status": found.returncode, "lines": found.stdout.splitlines(), "notes": found.stderr.splitlines()}
        put(json.dumps(said) + "\n", found.returncode)
    else:
        put(found.stdout, found.returncode)
        sys.stderr.write(found.stderr)
    return found.returncode


def certify_records(given: argparse.Namespace) -> int:
    """Prints what certify says of the records."""
    try:
        # (what is told in short will do)
        service = status_of(given.folder)["service"]
        place, prefork = service["records"], service["prefork"]
    except (OSError, ValueError, KeyError, TypeError):
        place, prefork = pathlib.Path(given.folder) / "records", "prefork"
    lines, status = certify(pathlib.Path(given.records or place), given.prefork or prefork)
    text = json.dumps({"status": status, "lines": lines}) if given.json else "\n".join(lines)
    put(f"{text}\n", status)
    return status
