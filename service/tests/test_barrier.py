"""The barrier of a loop: what raises costs its own event."""
import selectors
import socket
import unittest
from unittest import mock

from kit import clock_ahead
from prefork_service import barrier
from prefork_service.barrier import MOST_BLIND, MOST_FAULTS, FAULT_TELL_SECONDS, Barrier, Broken


def broken(*_: object) -> None:
    raise KeyError("injected")


class Owner:
    """Has a handler that raises, and knows how to close its source."""

    def __init__(self) -> None:
        self.forsaken: list[socket.socket] = []

    def hear(self, _: socket.socket) -> None:
        raise ValueError("injected")

    def forsake(self, source: socket.socket) -> None:
        self.forsaken.append(source)


class BarrierTest(unittest.TestCase):
    def setUp(self) -> None:
        self.said: list[str] = []
        self.barrier, self.events = Barrier(self.said.append), selectors.DefaultSelector()
        self.addCleanup(self.events.close)
        self.one, self.other = socket.socketpair()
        self.addCleanup(self.one.close)
        self.addCleanup(self.other.close)
        pauses = mock.patch.object(barrier, "REST_SECONDS", 0.001)
        pauses.start()
        self.addCleanup(pauses.stop)

    def turn(self) -> int:
        """A turn of a loop; the number of its events."""
        keys = self.barrier.select(self.events, 0.0)
        for key in keys:
            self.barrier.event(self.events, key)
        return len(keys)

    def test_a_duty_that_raises_costs_nothing_else(self) -> None:
        self.assertEqual(self.barrier.duty(len, "four"), 4)
        self.assertIsNone(self.barrier.duty(broken, 1))
        self.assertEqual(self.barrier.count, 1)
        self.assertIn("a fault in broken, which costs this event alone:\nTraceback", self.said[0])
        self.assertTrue(self.said[0].endswith("KeyError: 'injected'"))

    def test_an_exit_is_no_fault(self) -> None:
        with self.assertRaises(SystemExit):
            self.barrier.duty(exit, 3)

    def test_the_same_fault_is_told_once_in_a_while(self) -> None:
        for _ in range(50):
            self.barrier.duty(broken)
        self.assertEqual((len(self.said), self.barrier.count), (1, 50))
        with mock.patch.object(barrier, "time", clock_ahead(FAULT_TELL_SECONDS + 1)):
            self.barrier.duty(broken)
        self.assertIn("(49 more since it was told last)", self.said[1])

    def test_a_source_that_fails_again_and_again_is_closed(self) -> None:
        self.events.register(self.one, selectors.EVENT_READ, broken)
        self.other.send(b"x")
        turns = 0
        while self.turn():
            turns += 1
        self.assertEqual((turns, self.one.fileno()), (MOST_FAULTS, -1))
        self.assertIn("broken has failed 5 times at one source, which is closed", self.said)

    def test_an_owner_closes_its_source_itself(self) -> None:
        owner = Owner()
        self.events.register(self.one, selectors.EVENT_READ, owner.hear)
        self.other.send(b"x")
        for _ in range(MOST_FAULTS):
            self.assertEqual(owner.forsaken, [])
            self.turn()
        self.assertEqual(owner.forsaken, [self.one])

    def test_a_source_that_was_taken_back_in_this_turn_is_not_heard(self) -> None:
        heard: list[str] = []
        third, fourth = socket.socketpair()
        self.addCleanup(third.close)
        self.addCleanup(fourth.close)

        def hear(_: socket.socket) -> None:
            heard.append("once")
            for source in (self.one, third):
                self.events.unregister(source)
                source.close()

        for source, teller in ((self.one, self.other), (third, fourth)):
            self.events.register(source, selectors.EVENT_READ, hear)
            teller.send(b"x")
        self.turn()
        self.assertEqual((heard, self.barrier.count), (["once"], 0))

    def test_a_loop_without_events_ends(self) -> None:
        events = mock.Mock()
        events.select.side_effect = OSError("injected")
        with self.assertRaises(Broken):
            for _ in range(MOST_BLIND):
                self.assertEqual(self.barrier.select(events, 0.0), [])
        self.assertEqual(self.barrier.count, MOST_BLIND)


if __name__ == "__main__":
    unittest.main()
