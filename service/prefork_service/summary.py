"""The state of a service as prefork-serve knows it, without a look at any process: what prefork-watch tells everybody, and
what is told in short where that does not run."""
import time
from typing import TYPE_CHECKING

from .feed import Message
from .sockets import inode_of
from .state import Whole

if TYPE_CHECKING:
    from .service import Service


class Summary:
    """What a service knows of itself."""

    def __init__(self, service: "Service"):
        self.of = service

    def addresses(self) -> list[str]:
        """The open addresses: while a word changes the service all of them, and else those that are wanted. One that was
        opened on the way, or is dropped, stays open for a moment."""
        held = sorted(self.of.keeping.held)
        wanted = set() if self.of.doing() else set(self.of.commands.current.addresses)
        return [address for address in held if address in wanted] if wanted else held

    def runs_now(self) -> str:
        """Who serves what, in a line."""
        record = self.of.watching.record
        count, generation = len(record.workers), record.generation or "none"
        addresses = " ".join(self.addresses()) or "no address"
        return f"{count} worker{'' if count == 1 else 's'} of generation {generation} at {addresses}"

    def news(self) -> tuple[Whole, Whole | None] | None:
        """The state of the whole, if it is another one, and the one before."""
        if self.of.is_stopped:
            return None
        return self.of.watching.news.take(self.of.watching.whole(self.of.doing()), time.monotonic())

    def has_news(self) -> bool:
        """Whether a state is about to be told."""
        return self.of.watching.news.is_near

    def state(self) -> Message:
        """What changes."""
        of, master = self.of, self.of.master
        keeper = of.keeping.process
        return {
            "addresses": self.addresses(),
            "held": {address: inode_of(one) for address, one in of.keeping.held.items()},
            "lost_paths": of.keeping.lost_paths(),
            "generation": of.watching.record.generation,
            "workers": of.watching.record.workers,
            "beats": {str(number): moment for number, moment in master.beats.items()} if master else {},
            "word_began": self.of.word_began if self.of.doing() else 0.0,
            "master": master.process.pid if master else None,
            "master_restarts": max(0, of.starts - 1),
            "keeper": {"process": keeper.pid if keeper else None, "restarts": of.keeping.restarts},
            "counts": of.chronicle.counted(),
            "ticks": of.ticks.count,
            "tick_outcomes": dict(of.chronicle.ticks),
            "doing": of.doing(),
            "question": of.question,
            "asked": of.asked,
            "asking": self.asking(),
            "ask": of.commands.current.ask,
            "hard_memory": self.hard_memory(),
            "waiting": len(of.waiting),
            "hooks": of.commands.hooks(),
            "accepted": of.commands.current.text.decode("latin-1"),
            "records_waiting": of.chronicle.waiting(),
            # The workers of a master that has died, which serve until others are ready.
            "survivors": of.survivors.as_json(),
            "whole": of.watching.whole(of.doing()).as_json(),
            "failing": of.watching.trying.as_json(time.monotonic()),
            "failed_starts": of.watching.trying.total,
            **({"preloaders": of.commands.preloading.status()} if of.commands.preloading else {}),
        }

    def hard_memory(self) -> Message:
        """The limits of the generation that runs, and those of the next one while it starts."""
        commands = self.of.commands
        now, following = ([[one.last, one.hard_memory] for one in found.groups] for found in (commands.current, commands.proposed))
        return {"generation": self.of.watching.record.generation, "limits": now, "next": following if commands.is_changing else []}

    def asking(self) -> Message | None:
        """The question that is asked: its number among all of them, and the addresses of the old and the new configuration."""
        commands = self.of.commands
        sides = {"old": [*commands.current.addresses], "new": [*commands.proposed.addresses]}
        return {"number": self.of.questions, **sides} if self.of.question else None

    def brief(self) -> Message:
        """The status in short."""
        state, of = self.state(), self.of
        names = ("addresses", "generation", "workers", "master", "master_restarts", "keeper", "doing", "question", "asking", "ask", "waiting")
        return {
            "brief": True,
            "service": {name: of.feed.hello[name] for name in ("process", "folder", "prefork", "records")}
            | {"seconds": int(time.monotonic() - of.began)},
            **{name: state[name] for name in names}, **state["whole"],
        }
