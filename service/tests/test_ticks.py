"""When the master is told a tick."""
import time
import types
import unittest
from typing import Any
from unittest import mock

from prefork_service import ticks
from prefork_service.service import QUIET_SECONDS, Service
from prefork_service.ticks import Ticks, pause_of

OUTPUT, ERRORS, WATCH, KEEPER, ASKER = range(5)


def resting(**changed: Any) -> Any:
    """A service that carries out a tick, and has tended everything a moment ago."""
    made = types.SimpleNamespace
    usual: dict[str, Any] = {
        "master": made(output=OUTPUT, errors=ERRORS), "feed": made(process=1, stream=WATCH), "is_ticking": lambda: True,
        "keeping": made(process=1, channel=KEEPER, lost=False), "survivors": made(now=[]), "stopping": made(word=None),
    }
    return made(**{**usual, "tended": time.monotonic(), **changed})


def is_quiet(service: Any, *sources: int) -> bool:
    return Service.is_quiet(service, [types.SimpleNamespace(fileobj=source) for source in sources])  # type: ignore[misc]


class TicksTest(unittest.TestCase):
    def test_the_pause(self) -> None:
        for workers, timeout, wanted in (
            (0, 60, 1.0), (100, 60, 1.0), (300, 60, 3.0), (300, 8, 2.0), (300, 1, 1.0), (1024, 60, 5.0), (1024, 86400, 5.0),
        ):
            self.assertEqual(pause_of(workers, timeout), wanted, (workers, timeout))

    def test_a_tick_that_hurries(self) -> None:
        found = Ticks()
        with mock.patch.object(ticks.time, "monotonic", return_value=100.5):
            self.assertTrue(found.is_due())
            self.assertEqual((found.tell(3.0), found.count, found.seconds()), ("tick 100", 1, 3.0))
            found.hurry()
            self.assertEqual((found.seconds(), found.is_due()), (1.0, False))
            self.assertEqual(found.tell(1.0), "tick 100")
            found.hurry()
            self.assertEqual(found.seconds(), 1.0)

    def test_pieces_of_a_tick_and_signs_of_life_have_nothing_tended(self) -> None:
        with mock.patch("time.monotonic", return_value=1000.0):
            self.assertTrue(is_quiet(resting(), OUTPUT, ERRORS, WATCH, KEEPER))
            self.assertTrue(is_quiet(resting(is_ticking=lambda: False), WATCH, KEEPER))
            self.assertTrue(is_quiet(resting(tended=1000.0 - QUIET_SECONDS), WATCH))

    def test_all_else_has_everything_tended(self) -> None:
        made = types.SimpleNamespace
        with mock.patch("time.monotonic", return_value=1000.0):
            for sources in ((), (ASKER,), (OUTPUT, ASKER)):
                self.assertFalse(is_quiet(resting(), *sources), sources)
            self.assertFalse(is_quiet(resting(is_ticking=lambda: False), OUTPUT))
            for changed in (
                {"tended": 999.0 - QUIET_SECONDS}, {"master": None}, {"feed": made(process=None, stream=WATCH)},
                {"keeping": made(process=None, channel=KEEPER, lost=False)}, {"keeping": made(process=1, channel=KEEPER, lost=True)},
                {"survivors": made(now=[1])}, {"stopping": made(word="QUIT")},
            ):
                self.assertFalse(is_quiet(resting(**changed), WATCH), changed)


if __name__ == "__main__":
    unittest.main()
