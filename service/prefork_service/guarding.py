"""A barrier round a program that people type: whatever happens ends with a status, and with a line that says why."""
import contextlib
import os
import sys
from collections.abc import Callable

INTERRUPTED = 130
ODD = "the service has answered what is not understood ({}: {}): are both of one version?"


class OutputFault(OSError):
    """Standard output can't be written. `status` is that of what was to be told."""

    def __init__(self, fault: OSError, status: int):
        super().__init__(fault.errno, fault.strerror)
        self.status, self.has_reader = status, not isinstance(fault, BrokenPipeError)


def complain(text: str) -> None:
    """Says something to people, if standard error takes it."""
    with contextlib.suppress(OSError, ValueError):
        print(f"prefork-ctl: {text}", file=sys.stderr, flush=True)


def put(text: str, status: int = 0) -> None:
    """Prints what was asked for, and what comes of it if that can't be printed."""
    try:
        print(text, end="", flush=True)
    except OSError as fault:
        raise OutputFault(fault, status) from fault


def forget_output() -> None:
    """What was not written is given up: the interpreter would complain of it at its end."""
    with contextlib.suppress(OSError, ValueError, AttributeError):
        nothing = os.open(os.devnull, os.O_WRONLY)
        os.dup2(nothing, sys.stdout.fileno())
        os.close(nothing)


def guarded(run: Callable[[], int]) -> int:
    """What a program gives, or the status of what has gone wrong."""
    try:
        status = run()
        if sys.stdout:
            sys.stdout.flush()
        return status
    except KeyboardInterrupt:
        complain("interrupted; a word that was sent is carried out all the same")
        status = INTERRUPTED
    except OutputFault as fault:
        # (a reader that has seen enough is no fault)
        if fault.has_reader:
            complain(f"standard output is not written: {fault.strerror}")
        status = fault.status or int(fault.has_reader)
    except BrokenPipeError:
        status = 0
    except OSError as fault:
        complain(f"{fault.strerror or fault}")
        status = 1
    except (ArithmeticError, AttributeError, LookupError, RecursionError, TypeError, ValueError) as fault:
        complain(ODD.format(type(fault).__name__, str(fault)[:100]))
        status = 1
    forget_output()
    return status
