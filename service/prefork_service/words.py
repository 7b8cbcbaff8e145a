"""Control words, and who waits for what comes of them."""
import collections
import socket
import time

# The words that stop a service: the one that lets requests in progress finish, and one that does not.
STOPS, GENTLE, AT_ONCE = ("QUIT", "INT", "TERM"), "QUIT", "TERM"
# Words that a signal says too.
SIGNALS = ("HUP", "USR1", "USR2", "WINCH", "TTIN", "TTOU", *STOPS)
ATTENDED = "USR2 attended"
WORDS = (*SIGNALS, ATTENDED)
# Asked in place of a word: what runs.
STATUS = "status"
# The same in short, by prefork-serve itself.
BRIEF = "status brief"
# Said by an operator: a tick now, which tries again what has failed.
TICK = "tick"
# Said by an operator: one worker of the next version is started away from the sockets, and ended.
TRY = "try HUP"
# What prefork-ctl shows by asking for the status again and again.
TOP = "top"
# What a master that starts carries out.
START = "tick 0"
# Words at which the configuration is read again.
CHANGES = ("HUP", "USR2", ATTENDED)
# How a line begins that is for people, before a block.
NOTE = "note "
# How many words may wait, and how many askers of them.
MOST_WAITING = 64
# What all askers of a word that read nothing may delay the service together.
TELL_SECONDS = 1.0


def is_tick(word: str) -> bool:
    """Whether a word is a tick of the clock, or the start of a master, which is one too."""
    return word.startswith(f"{TICK} ")


def is_routine(word: str) -> bool:
    """Whether a word is a tick of the clock alone."""
    return is_tick(word) and word != START


class Word:
    """A word, and the connections of those that wait for its block."""

    def __init__(self, text: str, asker: socket.socket | None = None):
        self.text, self.askers = text, [asker] if asker else []

    def join(self, other: "Word") -> None:
        """Stands for another word too, which is the same."""
        self.askers += other.askers

    def tell(self, text: str) -> None:
        """Says something. All together that read nothing may take this time."""
        until = time.monotonic() + TELL_SECONDS
        for asker in self.askers:
            try:
                asker.settimeout(max(0.0, until - time.monotonic()))
                asker.sendall(text.encode())
            except OSError:
                # The asker has gone.
                pass

    def answer(self, text: str) -> None:
        self.tell(text)
        self.close()

    def close(self) -> None:
        """Says nothing more."""
        for asker in self.askers:
            asker.close()
        self.askers = []


class Queue:
    """Words that wait for their turn: a stop before the others, the others in the order in which they came. HUPs in a
    row are one: it reads the configuration when its turn comes."""

    def __init__(self) -> None:
        self.stops: list[Word] = []
        self.others: collections.deque[Word] = collections.deque()

    def __len__(self) -> int:
        return len(self.stops) + len(self.others)

    def take(self, word: Word) -> bool:
        """Lets a word wait; whether there is room."""
        same = [other for other in self.stops if other.text == word.text]
        if word.text == "HUP" and self.others and self.others[-1].text == "HUP":
            same = [self.others[-1]]
        if sum(len(other.askers) for other in self.others) >= MOST_WAITING and word.text not in STOPS:
            return False
        if word.askers and sum(len(other.askers) for other in self.stops) >= MOST_WAITING:
            # The service stops anyway.
            return False
        if same:
            same[0].join(word)
        elif word.text in STOPS:
            self.stops.append(word)
        elif len(self.others) < MOST_WAITING:
            self.others.append(word)
        else:
            return False
        return True

    def next(self) -> Word:
        return self.stops.pop(0) if self.stops else self.others.popleft()
