"""The keeper: one socket for each address, as long as it is held."""
import os
import pathlib
import select
import socket
import subprocess
import tempfile
import time
import unittest
from typing import Any
from unittest import mock

from kit import BIN, free_address, until
from prefork_service import keeper
from prefork_service.opening import DEFER_SECONDS


class KeeperTest(unittest.TestCase):
    def setUp(self) -> None:
        room = tempfile.TemporaryDirectory(prefix="keeper-")
        self.addCleanup(room.cleanup)
        self.room = pathlib.Path(room.name)
        self.path = self.room / "keeper.sock"
        self.start()
        self.addCleanup(self.end)

    def start(self, *options: str) -> None:
        command = [BIN / "prefork-keeper", *options, self.path, "0.2"]
        self.process: Any = subprocess.Popen(command, stdin=subprocess.PIPE)
        self.assertTrue(until(self.path.exists))

    def end(self) -> None:
        self.process.stdin.close()
        self.assertEqual(self.process.wait(60), 0)
        self.path.unlink()

    def asked(self, address: str, hold: socket.socket | None = None):
        """The answer for an address, its socket, and the connection that holds it."""
        if not hold:
            hold = socket.socket(socket.AF_UNIX, socket.SOCK_SEQPACKET)
            self.addCleanup(hold.close)
            hold.connect(str(self.path))
        hold.send(address.encode())
        said, given, _, _ = socket.recv_fds(hold, 200, 1)
        listener = socket.socket(fileno=given[0]) if given else None
        if listener:
            self.addCleanup(listener.close)
        return said.decode(), listener, hold

    def test_prefork_serve_is_understood_as_people_are(self) -> None:
        for words in (["--door", "7"], ["--defer-accept", "--socket-mode", "660", "--socket-group", "0", "--door", "7"]):
            with mock.patch("sys.argv", ["prefork-keeper", *words, "run/keeper.sock"]):
                self.assertEqual(vars(keeper.told_by_serve([*words, "run/keeper.sock"])), vars(keeper.arguments()))
        with self.assertRaises(ValueError):
            keeper.told_by_serve(["--socket-user", "0", "--door", "7", "run/keeper.sock"])

    def test_two_workers_get_the_same_socket(self) -> None:
        place = str(self.room / "site.sock")
        _, one, _ = self.asked(place)
        said, other, _ = self.asked(place)
        self.assertEqual(said, "ok")
        with socket.socket(socket.AF_UNIX) as client:
            client.connect(place)
            one.accept()[0].close()
        with self.assertRaises(BlockingIOError):
            other.accept()

    def test_all_workers_may_connect_before_the_first_of_them_asks(self) -> None:
        """On a busy machine each of many that start at a time may lose its processor right after it has connected."""
        place, workers = str(self.room / "site.sock"), []
        for _ in range(200):
            worker = socket.socket(socket.AF_UNIX, socket.SOCK_SEQPACKET)
            self.addCleanup(worker.close)
            worker.connect(str(self.path))
            workers.append(worker)
        # (the answer to a later one tells that all of them were let in)
        self.asked(place)
        self.assertEqual([self.asked(place, worker)[0] for worker in workers], ["ok"] * len(workers))

    def test_a_unix_socket_has_the_mode_and_the_group(self) -> None:
        self.end()
        self.start("--socket-mode", "620", "--socket-group", str(os.getegid()))
        place = self.room / "site.sock"
        self.assertEqual(self.asked(str(place))[0], "ok")
        found = place.stat()
        self.assertEqual((found.st_mode & 0o777, found.st_gid), (0o620, os.getegid()))

    @unittest.skipUnless(os.geteuid(), "root is in every group")
    def test_a_group_of_others_is_refused(self) -> None:
        self.end()
        self.start("--socket-group", "0")
        place = self.room / "site.sock"
        self.assertTrue(self.asked(str(place))[0].startswith("no "))
        self.assertFalse(place.exists())

    def test_an_address_that_is_taken_is_refused(self) -> None:
        with socket.socket() as other:
            other.bind(("127.0.0.1", 0))
            other.listen()
            said, listener, _ = self.asked(f"127.0.0.1:{other.getsockname()[1]}")
        self.assertTrue(said.startswith("no "), said)
        self.assertIsNone(listener)

    def test_a_connection_is_held_back_until_its_first_bytes_are_there(self) -> None:
        self.end()
        self.start("--defer-accept")
        place = free_address()
        _, listener, _ = self.asked(place)
        with self.held_back(place, listener) as client:
            client.sendall(b"x")
            self.assertTrue(until(lambda: select.select([listener], [], [], 0)[0]))
            accepted, _ = listener.accept()
            self.assertEqual(accepted.recv(1), b"x")
            accepted.close()

    def held_back(self, place: str, listener: socket.socket) -> socket.socket:
        """A connection that is held back. One that was looked at too late says nothing, and another one is made."""
        while True:
            begun, client = time.monotonic(), socket.create_connection(("127.0.0.1", int(place.rpartition(":")[2])))
            time.sleep(0.2)
            try:
                listener.accept()[0].close()
            except BlockingIOError:
                return client
            client.close()
            self.assertGreaterEqual(time.monotonic() - begun, DEFER_SECONDS)

    def test_the_standard_error_of_the_service_is_given(self) -> None:
        with socket.socket(socket.AF_UNIX, socket.SOCK_SEQPACKET) as asker:
            asker.connect(str(self.path))
            asker.send(b"errors")
            said, given, _, _ = socket.recv_fds(asker, 200, 1)
        self.addCleanup(os.close, given[0])
        self.assertEqual((said, os.fstat(given[0])), (b"ok", os.fstat(2)))

    def test_an_address_that_is_none_is_refused(self) -> None:
        for address in ("nothing", "127.0.0.1:x", "127.0.0.1:99999"):
            self.assertTrue(self.asked(address)[0].startswith("no "), address)

    def test_a_dropped_address_is_closed_while_another_is_held(self) -> None:
        kept, dropped = self.room / "kept", self.room / "dropped"
        _, _, hold = self.asked(str(kept))
        _, listener, other = self.asked(str(dropped))
        other.close()
        listener.close()
        self.assertTrue(until(lambda: not dropped.exists()))
        hold.close()
        time.sleep(0.6)
        self.assertTrue(kept.exists())

    def test_what_a_reload_added_is_held_and_given_once_nobody_else_has_it(self) -> None:
        """A master dies in a reload that adds an address, and all workers with it: the keeper alone has both sockets. It gives
        the very same ones to the next workers, with the connections that wait there."""
        names = [str(self.room / name) for name in ("ran", "added")]
        first = [self.asked(name) for name in names]
        inodes = [os.fstat(one.fileno()).st_ino for _, one, _ in first]
        waiting = [socket.socket(socket.AF_UNIX) for _ in names]
        for client, name in zip(waiting, names):
            self.addCleanup(client.close)
            client.connect(name)
        for _, one, hold in first:
            one.close()
            hold.close()
        # (longer than it keeps an address that nobody holds while others are held)
        time.sleep(0.6)
        for client, name, inode in zip(waiting, names, inodes):
            said, one, _ = self.asked(name)
            self.assertEqual((said, os.fstat(one.fileno()).st_ino), ("ok", inode))
            one.accept()[0].close()
            self.assertEqual(client.recv(1), b"")

    def test_a_connection_holds_several_addresses_and_gives_each_up(self) -> None:
        places = [self.room / name for name in ("first", "second", "third")]
        _, _, hold = self.asked(str(places[0]))
        for place in (places[1], places[2], places[1]):
            self.assertEqual(self.asked(str(place), hold)[0], "ok")
        hold.send(f"-{self.room / 'unknown'}".encode())
        hold.send(f"-{places[1]}".encode())
        self.assertTrue(until(lambda: not places[1].exists()))
        time.sleep(0.6)
        self.assertTrue(places[0].exists() and places[2].exists())
        _, _, other = self.asked(str(places[0]))
        hold.close()
        self.assertTrue(until(lambda: not places[2].exists()))
        self.assertEqual(self.asked("nothing", other)[0][:3], "no ")


if __name__ == "__main__":
    unittest.main()
