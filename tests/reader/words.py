"""Words on a modelled kernel: what each asks for, and what comes of it (control_words/specs/Words.antt,
worker_table/specs/Beats.antt, word_runner/specs, plan_executor/specs/Refusals.antt, and lacks_generation of
service_state/specs/Targets.antt)."""
from collections.abc import Callable
from typing import NamedTuple

from reader.after import next_config, next_image, next_record
from reader.claims import refusal_of, run_of
from reader.master import (
    Agrees, Attended, Mend, Record, Reload, Reopen, Stop, Target, Upgrade, Workers, sides_of,
)
from reader.numbers import Numbers, is_in
from reader.pieces import quiet
from reader.plans import Turns
from reader.run import Moment, Pattern, Ran, report_of
from reader.settings import Settings
from reader.table import Table, same_generation
from reader.texts import Moments, block_text
from reader.vocabulary import Answer, AnyOutcome, Degraded, Fork, Outcome, Report

# each worker's number, and the moment of its last beat if it has beaten
Beats = dict[int, int | None]


class Standing(NamedTuple):
    """Where a master is between two words."""

    table: Table
    record: Record | None
    beats: Beats


class Run(NamedTuple):
    """A target that was carried out."""

    table: Table
    record: Record
    target: Target
    turns: Turns
    pattern: Pattern
    ran: Ran
    report: Report


class Heard(NamedTuple):
    """What a word results in: the text after its line, the run if there was one, and where the master is then."""

    text: str
    run: Run | None
    then: Standing


# What words ask for


def is_late(now: int, timeout: int, last: int | None) -> bool:
    return last is not None and last < now and timeout < now - last


def overdue_numbers(beats: Beats, now: int, timeout: int) -> Numbers:
    return tuple(k for k, last in sorted(beats.items()) if is_late(now, timeout, last))


def settings_for(target: Callable[[Settings], Target], r: Record, s: Settings) -> Target | str:
    """The settings that a master can take up: with the pid file that it has."""
    return target(s) if s.pid == r.pid_path else "refused W5\n"


def target_of(word: str, r: Record, beats: Beats, s: Settings) -> Target | str:
    """The target that a word asks for, or what is said instead."""
    match word.split(" "):
        case ["HUP"]:
            return settings_for(Reload, r, s)
        case ["USR2"]:
            return settings_for(Upgrade, r, s)
        case ["USR2", "attended"]:
            return settings_for(Attended, r, s)
        case ["QUIT"]:
            return Stop(False)
        case ["INT"] | ["TERM"]:
            return Stop(True)
        case ["USR1"]:
            return Reopen()
        case ["WINCH"]:
            return Workers(0)
        case ["TTIN"]:
            return Workers(r.wanted + 1) if r.wanted < 1024 else "refused W3\n"
        case ["TTOU"]:
            return Workers(r.wanted - 1) if r.wanted else "nothing\n"
        case ["tick", now]:
            return Mend(overdue_numbers(beats, int(now), r.timeout))
        case _:
            raise ValueError(word)


# What comes of them


def noted_beat(old: Standing, nr: int, now: int) -> Heard:
    """A beat is noted, or it is refused: there is no such worker, or it has beaten later."""
    if nr not in old.beats:
        return Heard("refused T3\n", None, old)
    last = old.beats[nr]
    if last is not None and now < last:
        return Heard("refused T4\n", None, old)
    return Heard("nothing\n", None, old._replace(beats={**old.beats, nr: now}))


def started(r: Record | None, ran: Ran) -> Numbers:
    """The workers that a run started, of the generation that runs then."""
    forks = [e.call for e in ran.entries if isinstance(e.call, Fork) and e.answer is Answer.Forked]
    return () if r is None else tuple(c.nr for c in forks if same_generation(c.generation, r.generation))


def followed(beats: Beats, ready: Numbers, anew: Numbers) -> Beats:
    """The workers after a plan that left the ready ones, and started some of them anew."""
    return {k: None if is_in(anew, k) else beats.get(k) for k in ready}


def lacks_generation(r: Record, target: Target) -> bool:
    """A reload or an upgrade that has no generation, since a number would pass its limit."""
    match target:
        case Reload():
            return next_config(r.generation) is None
        case Upgrade() | Attended():
            return next_image(r.generation) is None
        case _:
            return False


def acted(old: Standing, r: Record, target: Target, turns: Turns, moments: Moments) -> Heard:
    """A target that is carried out, or refused: the record does not agree, there is no plan, or an executing master
    exits."""
    if not Agrees(old.table, r):
        return Heard("refused E2\n", None, old)
    if lacks_generation(r, target):
        return Heard("refused E3 P3\n", None, old)

    def pattern(n: int) -> Moment:
        return moments.get(n, quiet)

    ran = run_of(r, target, turns, pattern, old.table)
    refused = refusal_of(r, target, pattern, ran)
    if refused is not None:
        return Heard(f"refused E4 {refused}\n", None, old)
    report = report_of(sides_of(r, target), ran)
    then = next_record(r, target, report, ran.last.table)
    beats = followed(old.beats, report.ready, started(then, ran))
    run = Run(old.table, r, target, turns, pattern, ran, report)
    return Heard(block_text(ran.entries, report), run, Standing(ran.last.table, then, beats))


def heard(old: Standing, word: str, s: Settings, turns: Turns, moments: Moments) -> Heard:
    """What a word results in."""
    if old.record is None:
        return Heard("refused V1\n", None, old)
    if word.startswith("beat "):
        _, nr, now = word.split(" ")
        return noted_beat(old, int(nr), int(now))
    target = target_of(word, old.record, old.beats, s)
    if isinstance(target, str):
        return Heard(target, None, old)
    return acted(old, old.record, target, turns, moments)


# The exit status


def outcome_status(outcome: AnyOutcome) -> int:
    if isinstance(outcome, Degraded):
        return 4
    return {Outcome.Done: 0, Outcome.RolledBack: 3, Outcome.Lost: 1}[outcome]


def status_of(it: Heard) -> int:
    if it.run is None:
        return int(it.text.startswith("refused "))
    return outcome_status(it.run.report.outcome)


def graver(one: int, other: int) -> int:
    """1 outweighs 4, and 4 outweighs 3."""
    return 1 if 1 in (one, other) else max(one, other)
