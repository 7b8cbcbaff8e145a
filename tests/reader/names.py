"""Names of processes that exit (vocabulary: Name)."""
from dataclasses import dataclass

from reader.vocabulary import Generation


@dataclass(frozen=True, slots=True)
class Worker:
    """The Starting or Ready worker of the generation with that number."""

    generation: Generation
    nr: int


@dataclass(frozen=True, slots=True)
class Draining:
    """The Draining worker of the generation with that number; of several, the one that was started first."""

    generation: Generation
    nr: int


@dataclass(frozen=True, slots=True)
class Master:
    """The live master of the image."""

    image: int


Name = Worker | Draining | Master
