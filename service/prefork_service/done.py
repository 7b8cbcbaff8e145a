"""A word that was carried out, as people are told of it."""
import dataclasses
from typing import Any

from .blocks import block_of


@dataclasses.dataclass
class Done:
    """A word that was carried out: when it began, how long it took, its block, why calls of it failed, and what the workers
    said last that failed to start."""

    word: str
    began: str
    seconds: float
    block: str
    reasons: list[str]
    errors: dict[str, list[str]] = dataclasses.field(default_factory=dict)

    @property
    def report(self) -> str:
        return self.block.splitlines()[-1]

    @property
    def cause(self) -> str | None:
        call = block_of(self.block).cause
        return call.text if call else None

    def as_json(self) -> dict[str, Any]:
        return {
            "word": self.word, "report": self.report, "at": self.began, "seconds": round(self.seconds, 3),
            "cause": self.cause, "reasons": self.reasons,
            "errors": [{"worker": name, "lines": lines} for name, lines in self.errors.items()],
        }
