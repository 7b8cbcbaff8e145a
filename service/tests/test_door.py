"""The door: who says nothing keeps nobody out."""
import os
import pathlib
import resource
import selectors
import socket
import tempfile
import time
import unittest
from unittest import mock

from kit import clock_ahead, until
from prefork_service import door
from prefork_service.door import Door


class DoorTest(unittest.TestCase):
    def setUp(self) -> None:
        room = tempfile.TemporaryDirectory(prefix="door-")
        self.addCleanup(room.cleanup)
        self.path = str(pathlib.Path(room.name) / "sock")
        self.events, self.heard, self.said = selectors.DefaultSelector(), [], []
        listener = socket.socket(socket.AF_UNIX)
        listener.bind(self.path)
        listener.listen(1024)
        self.door = Door(self.events, listener, lambda client: self.heard.append(self.text_of(client)), self.said.append)
        self.addCleanup(self.end)

    def end(self) -> None:
        for key in list(self.events.get_map().values()):
            key.fileobj.close()
        self.events.close()

    def text_of(self, client: socket.socket) -> bytes:
        with client:
            return client.recv(100)

    def client(self, text: bytes = b"") -> socket.socket:
        client = socket.socket(socket.AF_UNIX)
        self.addCleanup(client.close)
        client.settimeout(5)
        client.connect(self.path)
        client.sendall(text)
        return client

    def turn(self, seconds: float = 0.3) -> None:
        """Lets it do what there is to do, however long that takes, and waits for more."""
        deadline = time.monotonic() + seconds
        while True:
            is_late, ready = time.monotonic() >= deadline, self.events.select(0.05)
            for key, _ in ready:
                key.data(key.fileobj)
            self.door.tend()
            if is_late and not ready:
                return

    def hears(self) -> bool:
        self.turn(0.1)
        return bool(self.heard)

    def is_dropped(self, client: socket.socket) -> bool:
        client.setblocking(False)
        try:
            return client.recv(1) == b""
        except BlockingIOError:
            return False

    def test_a_client_is_heard_once_it_says_something(self) -> None:
        client = self.client()
        self.turn(0.1)
        self.assertEqual(self.heard, [])
        client.sendall(b"HUP")
        self.turn()
        self.assertEqual(self.heard, [b"HUP"])

    def test_silent_clients_are_limited_in_number_and_the_oldest_make_way(self) -> None:
        clients = [self.client() for _ in range(door.MOST_SILENT + 10)]
        self.turn()
        self.assertEqual([self.is_dropped(client) for client in clients], [True] * 10 + [False] * door.MOST_SILENT)
        self.client(b"word")
        self.turn()
        self.assertEqual(self.heard, [b"word"])

    def test_a_client_that_has_spoken_is_heard_and_not_dropped(self) -> None:
        first = self.client()
        self.turn(0.1)
        for _ in range(door.MOST_SILENT - 1):
            self.client()
        self.turn(0.1)
        first.sendall(b"late")
        self.door.drop_oldest()
        self.assertEqual(self.heard, [b"late"])

    def test_silent_clients_are_limited_in_time(self) -> None:
        client = self.client()
        self.turn(0.1)
        self.assertLessEqual(self.door.seconds(), door.SILENT_SECONDS)
        self.assertFalse(self.is_dropped(client))
        with mock.patch.object(door, "time", clock_ahead(door.SILENT_SECONDS)):
            self.turn(0.1)
        self.assertTrue(self.is_dropped(client))
        self.assertIsNone(self.door.seconds())

    def test_without_a_descriptor_the_oldest_makes_way_and_it_is_said_once(self) -> None:
        clients = [self.client() for _ in range(20)]
        spoken = self.client(b"word")
        self.without_descriptors(5)
        self.assertEqual(self.heard, [b"word"])
        self.assertTrue(self.is_dropped(clients[0]))
        self.assertEqual(self.said, ["a connection is not accepted: Too many open files"])
        spoken.close()

    def test_without_any_the_door_is_shut_for_a_moment(self) -> None:
        self.client(b"word")
        self.without_descriptors(0)
        self.assertEqual(self.heard, [])
        self.assertTrue(until(self.hears))
        self.assertEqual(self.heard, [b"word"])

    def without_descriptors(self, left: int) -> None:
        """A while in which only some more descriptors may be opened."""
        soft, hard = resource.getrlimit(resource.RLIMIT_NOFILE)
        probe = os.dup(0)
        os.close(probe)
        resource.setrlimit(resource.RLIMIT_NOFILE, (probe + left, hard))
        try:
            self.turn(0.15)
        finally:
            resource.setrlimit(resource.RLIMIT_NOFILE, (soft, hard))


if __name__ == "__main__":
    unittest.main()
