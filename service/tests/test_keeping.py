"""The keeper of a service: it may die, and its sockets stay."""
import os
import pathlib
import selectors
import signal
import socket
import subprocess
import tempfile
import threading
import time
import types
import unittest
from collections.abc import Callable
from unittest import mock

from kit import free_address, is_open
from prefork_service import core, inheriting, keeper, keeping
from prefork_service.holding import Unfit
from prefork_service.inheriting import heritage_at
from prefork_service.keeper import KeptSocket
from prefork_service.keeping import KeeperProcess


def connected(address: str) -> socket.socket:
    """A connection to an address."""
    if not address.startswith("/"):
        return socket.create_connection(place_of(address), 60)
    client = socket.socket(socket.AF_UNIX)
    client.settimeout(60)
    try:
        client.connect(address)
    except OSError:
        client.close()
        raise
    return client


def place_of(address: str) -> tuple[str, int]:
    host, _, port = address.rpartition(":")
    return host, int(port)


class KeepingTest(unittest.TestCase):
    def setUp(self) -> None:
        room = tempfile.TemporaryDirectory(prefix="keeping-")
        self.addCleanup(room.cleanup)
        self.room = pathlib.Path(room.name)
        self.folder = types.SimpleNamespace(path=self.room, keeper=self.room / "keeper.sock")
        self.events = selectors.DefaultSelector()
        self.addCleanup(self.events.close)
        # What workers hold their sockets by.
        self.holds: list[socket.socket] = []
        pauses = mock.patch.object(keeping, "KEEPER_PAUSE_SECONDS", 0.1)
        pauses.start()
        self.addCleanup(pauses.stop)
        self.keeping = KeeperProcess(self.events, self.folder, [], {}, {})
        self.addCleanup(self.end)

    def end(self) -> None:
        self.keeping.end()
        for one in self.keeping.held.values():
            one.close()

    def turn(self, holds: Callable, seconds: float = 60.0) -> bool:
        deadline = time.monotonic() + seconds
        while not holds() and time.monotonic() < deadline:
            for key, _ in self.events.select(0.05):
                key.data(key.fileobj)
            self.keeping.tend()
        return bool(holds())

    def asked(self, address: str) -> tuple[str, int]:
        """The answer of the keeper, and the number of the socket in the system."""
        hold = socket.socket(socket.AF_UNIX, socket.SOCK_SEQPACKET)
        self.addCleanup(hold.close)
        hold.settimeout(60)
        hold.connect(str(self.folder.keeper))
        hold.send(address.encode())
        said, given, _, _ = socket.recv_fds(hold, 200, 1)
        if not given:
            return said.decode(), 0
        with socket.socket(fileno=given[0]) as one:
            return said.decode(), os.fstat(one.fileno()).st_ino

    def killed(self, number: int = signal.SIGKILL) -> int:
        """Kills the keeper; its number."""
        process = self.keeping.process.pid
        os.kill(process, number)
        return process

    def is_another(self, process: int) -> bool:
        return self.keeping.process is not None and self.keeping.process.pid != process

    def test_a_worker_that_lets_its_sockets_go_is_noticed(self) -> None:
        holds = [socket.socket(socket.AF_UNIX, socket.SOCK_SEQPACKET) for _ in range(2)]
        for number, hold in enumerate(holds):
            self.addCleanup(hold.close)
            hold.settimeout(60)
            hold.connect(str(self.folder.keeper))
            hold.send(str(self.room / f"site{number}").encode())
            self.assertEqual(hold.recv(200), b"ok")
        self.assertTrue(self.turn(lambda: len(self.keeping.held) == 2))
        self.assertFalse(self.keeping.take_lost())
        holds[0].close()
        self.assertTrue(self.turn(lambda: self.keeping.lost))
        self.assertEqual([self.keeping.take_lost() for _ in range(2)], [True, False])

    def given(self, address: str) -> socket.socket:
        """The socket of an address, as a worker gets it."""
        hold = socket.socket(socket.AF_UNIX, socket.SOCK_SEQPACKET)
        self.holds.append(hold)
        self.addCleanup(hold.close)
        hold.settimeout(60)
        hold.connect(str(self.folder.keeper))
        hold.send(address.encode())
        said, given, _, _ = socket.recv_fds(hold, 200, 1)
        self.assertEqual(said, b"ok")
        one = socket.socket(fileno=given[0])
        one.settimeout(60)
        self.addCleanup(one.close)
        return one

    def test_an_address_that_is_dropped_refuses_though_a_worker_has_it_and_is_opened_anew(self) -> None:
        stays, dropped = free_address(), free_address()
        self.given(stays)
        old = [self.given(dropped)]
        for _ in range(3):
            with connected(dropped) as waits:
                self.assertTrue(self.turn(lambda: len(self.keeping.held) == 2))
                self.keeping.drop_others([stays])
                self.assertRaises(ConnectionRefusedError, connected, dropped)
                self.assertTrue(self.turn(lambda: list(self.keeping.held) == [stays]))
                old[-1].accept()[0].close()
                self.assertEqual(waits.recv(1), b"")
            # (the worker that finishes still has the old socket)
            old.append(self.given(dropped))
            with connected(dropped):
                old[-1].accept()[0].close()
        connected(stays).close()

    def test_an_address_is_dropped_while_no_keeper_runs(self) -> None:
        stays, dropped = free_address(), free_address()
        self.given(stays)
        listener = self.given(dropped)
        self.assertTrue(self.turn(lambda: len(self.keeping.held) == 2))
        self.keeping.begun = time.monotonic() + 3600
        process = self.killed()
        self.assertTrue(self.turn(lambda: not self.keeping.process))
        self.keeping.drop_others([stays])
        self.assertRaises(ConnectionRefusedError, connected, dropped)
        self.keeping.begun = 0.0
        self.assertTrue(self.turn(lambda: self.is_another(process)))
        self.assertEqual((list(self.keeping.held), self.asked(stays)[0]), ([stays], "ok"))
        listener.close()

    def test_a_socket_of_systemd_never_refuses(self) -> None:
        with socket.create_server(("127.0.0.1", 0)) as unit:
            address = "127.0.0.1:%d" % unit.getsockname()[1]
            self.keeping.end()
            self.keeping = KeeperProcess(self.events, self.folder, [], {address: unit.dup()}, {})
            self.keeping.drop_others([])
            self.keeping.seal()
            connected(address).close()

    def test_a_stop_refuses_new_connections_and_lets_those_that_wait_be_accepted(self) -> None:
        tcp, path = free_address(), str(self.room / "site.sock")
        listeners = [self.given(tcp), self.given(path)]
        self.assertTrue(self.turn(lambda: len(self.keeping.held) == 2))
        waiting = [connected(tcp), connected(path)]
        self.keeping.seal()
        self.assertRaises(ConnectionRefusedError, connected, tcp)
        self.assertRaises(FileNotFoundError, connected, path)
        workers = [threading.Thread(target=lambda one=one: one.accept()[0].close()) for one in listeners]
        for worker in workers:
            worker.start()
        with mock.patch.object(keeping, "KEEPER_DRAIN_SECONDS", 60.0):
            self.keeping.drain()
        for worker, client in zip(workers, waiting):
            worker.join()
            self.assertEqual(client.recv(1), b"")
            client.close()

    def test_a_drain_has_its_limit(self) -> None:
        address = free_address()
        listener = self.given(address)
        self.assertTrue(self.turn(lambda: self.keeping.held))
        with connected(address), mock.patch.object(keeping, "KEEPER_DRAIN_SECONDS", 0.05):
            self.keeping.seal()
            self.keeping.drain()
            listener.accept()[0].close()

    def test_a_unix_socket_whose_path_was_removed_is_opened_anew(self) -> None:
        path = str(self.room / "site.sock")
        old = self.given(path)
        self.assertTrue(self.turn(lambda: self.keeping.held))
        self.keeping.renew()
        before = self.asked(path)
        self.assertEqual((self.keeping.lost_paths(), self.asked(path)), ([], before))
        with connected(path) as waits:
            os.unlink(path)
            self.assertEqual(self.keeping.lost_paths(), [path])
            self.keeping.renew()
            new = self.given(path)
            with connected(path):
                new.accept()[0].close()
            old.accept()[0].close()
            self.assertEqual(waits.recv(1), b"")
        self.assertTrue(self.turn(lambda: not self.keeping.lost_paths()))

    def test_a_killed_keeper_is_started_again_with_the_same_sockets(self) -> None:
        places = [free_address(), str(self.room / "site.sock")]
        before = [self.asked(place) for place in places]
        self.assertTrue(self.turn(lambda: len(self.keeping.held) == 2))
        for _ in range(2):
            process = self.killed()
            self.assertTrue(self.turn(lambda: self.is_another(process)))
            self.assertEqual([self.asked(place) for place in places], before)

    def serve_is_killed(self) -> subprocess.Popen:
        """prefork-serve goes without a word; the keeper that it leaves."""
        self.assertTrue(self.turn(lambda: not self.keeping.owes))
        self.events.unregister(self.keeping.channel)
        self.keeping.channel.close()
        for one in self.keeping.held.values():
            one.close()
        self.keeping.held.clear()
        left, self.keeping.process = self.keeping.process, None
        self.addCleanup(left.kill)
        return left

    def next_one(self, heritage: inheriting.Heritage) -> None:
        """The keeping of the next prefork-serve, with what it was left."""
        self.keeping = KeeperProcess(self.events, self.folder, [], {}, heritage.sockets)
        core.end_earlier(heritage.heir())
        heritage.connection.detach()

    def test_a_killed_service_leaves_its_sockets_to_the_next_one(self) -> None:
        places = [free_address(), str(self.room / "site.sock")]
        workers = [self.given(place) for place in places]
        inodes = {place: os.fstat(one.fileno()).st_ino for place, one in zip(places, workers)}
        self.assertTrue(self.turn(lambda: len(self.keeping.held) == 2))
        # As long as it runs nobody else has them.
        with mock.patch.object(inheriting, "SEEN_SECONDS", 0.0):
            self.assertEqual(heritage_at(self.folder.keeper).sockets, {})
        left = self.serve_is_killed()
        # A start that fails takes nothing away, and no holder need be there while it has them.
        failed = heritage_at(self.folder.keeper)
        self.assertEqual(set(failed.sockets), set(places))
        inheriting.close_all(failed.sockets)
        failed.connection.close()
        heritage = heritage_at(self.folder.keeper)
        for hold in self.holds:
            hold.close()
        with connected(places[0]) as waits:
            self.next_one(heritage)
            self.assertEqual(left.wait(60), 0)
            self.assertEqual({place: self.asked(place) for place in places}, {place: ("ok", inodes[place]) for place in places})
            workers[0].accept()[0].close()
            self.assertEqual(waits.recv(1), b"")

    def test_the_keeper_of_a_killed_service_ends_with_the_last_worker(self) -> None:
        path = str(self.room / "site.sock")
        self.given(path)
        self.assertTrue(self.turn(lambda: self.keeping.held))
        left = self.serve_is_killed()
        with self.assertRaises(subprocess.TimeoutExpired):
            left.wait(1.0)
        connected(path).close()
        for hold in self.holds:
            hold.close()
        self.assertEqual((left.wait(60), os.path.exists(path)), (0, False))
        self.keeping.door.close()
        self.assertEqual(heritage_at(self.folder.keeper).sockets, {})

    def test_an_address_that_the_next_service_does_not_name_refuses(self) -> None:
        stays, dropped = free_address(), free_address()
        listener = self.given(dropped)
        self.given(stays)
        self.assertTrue(self.turn(lambda: len(self.keeping.held) == 2))
        self.serve_is_killed()
        heritage = heritage_at(self.folder.keeper)
        self.assertEqual(set(heritage.take([stays, "127.0.0.1:1"], [])), {stays})
        self.assertRaises(ConnectionRefusedError, connected, dropped)
        self.next_one(heritage)
        connected(stays).close()
        listener.close()

    def test_who_asks_while_no_keeper_runs_waits(self) -> None:
        place = free_address()
        before = self.asked(place)
        self.assertTrue(self.turn(lambda: self.keeping.held))
        self.killed(signal.SIGSTOP)
        hold = socket.socket(socket.AF_UNIX, socket.SOCK_SEQPACKET)
        self.addCleanup(hold.close)
        hold.connect(str(self.folder.keeper))
        hold.send(place.encode())
        process = self.killed()
        self.assertTrue(self.turn(lambda: self.is_another(process)))
        hold.settimeout(60)
        said, given, _, _ = socket.recv_fds(hold, 200, 1)
        with socket.socket(fileno=given[0]) as one:
            self.assertEqual((said.decode(), os.fstat(one.fileno()).st_ino), before)

    def test_a_keeper_that_hangs_is_replaced(self) -> None:
        with mock.patch.multiple(keeping, KEEPER_ANSWER_SECONDS=30.0, ASK_SECONDS=0.1):
            self.assertFalse(self.turn(lambda: self.keeping.restarts, 1.0))
        with mock.patch.multiple(keeping, KEEPER_ANSWER_SECONDS=0.5, ASK_SECONDS=0.1):
            process = self.killed(signal.SIGSTOP)
            self.assertTrue(self.turn(lambda: self.is_another(process)))

    def test_a_keeper_that_cannot_be_started_is_tried_again(self) -> None:
        process = self.killed()
        with mock.patch.object(keeping.subprocess, "Popen", side_effect=BlockingIOError(11, "again")) as start:
            self.assertTrue(self.turn(lambda: start.call_count > 1))
        self.assertTrue(self.turn(lambda: self.is_another(process)))
        self.assertEqual(self.asked(free_address())[0], "ok")

    def test_the_addresses_of_a_start_are_held_until_they_are_released(self) -> None:
        places = [str(self.room / name) for name in ("one", "two")]
        with mock.patch.dict(os.environ, PREFORK_KEEPER=str(self.folder.keeper)):
            self.keeping.hold(places)
            with socket.socket() as other:
                other.bind(("127.0.0.1", 0))
                other.listen()
                taken = "127.0.0.1:%d" % other.getsockname()[1]
                with self.assertRaisesRegex(Unfit, f"{taken}: Address already in use"):
                    self.keeping.hold([taken])
        self.assertTrue(self.turn(lambda: self.keeping.refusals))
        self.assertEqual(self.keeping.refusals, [f"{taken}: Address already in use"])
        self.assertFalse(self.turn(lambda: len(self.keeping.held) < 2, 3.0))
        self.keeping.release()

    def test_a_dropped_address_is_given_up_here_too(self) -> None:
        self.asked(str(self.room / "kept"))
        hold = socket.socket(socket.AF_UNIX, socket.SOCK_SEQPACKET)
        hold.connect(str(self.folder.keeper))
        hold.send(str(self.room / "dropped").encode())
        self.assertTrue(self.turn(lambda: len(self.keeping.held) == 2))
        hold.close()
        self.assertTrue(self.turn(lambda: len(self.keeping.held) == 1))
        self.assertTrue(self.turn(lambda: not (self.room / "dropped").exists()))

    def freed(self) -> tuple[str, socket.socket]:
        """An address that nobody holds any longer while another one is held, and its socket. The keeper has said so, and
        prefork-serve has not heard it yet."""
        self.given(free_address())
        address = free_address()
        listener = self.given(address)
        self.assertTrue(self.turn(lambda: len(self.keeping.held) == 2))
        self.holds[-1].close()
        channel = self.keeping.channel
        channel.settimeout(60)
        while address not in channel.recv(200, socket.MSG_PEEK).decode():
            self.keeping.hear(channel)
        channel.setblocking(False)
        return address, listener

    def test_an_address_that_nobody_holds_is_given_as_long_as_prefork_serve_has_it(self) -> None:
        """With that copy it could not be opened anew."""
        address, listener = self.freed()
        inode = os.fstat(listener.fileno()).st_ino
        with connected(address) as waits:
            one = self.given(address)
            self.assertEqual(os.fstat(one.fileno()).st_ino, inode)
            one.accept()[0].close()
            self.assertEqual(waits.recv(1), b"")
        # (prefork-serve closes its copy, and has another one then)
        self.keeping.hear(self.keeping.channel)
        self.assertNotIn(address, self.keeping.held)
        self.assertTrue(self.turn(lambda: address in self.keeping.held))
        self.assertEqual(os.fstat(self.keeping.held[address].fileno()).st_ino, inode)
        self.assertFalse(self.turn(lambda: address not in self.keeping.held, 1.0))

    def test_no_address_is_closed_while_it_is_open_which_ones_are_needed(self) -> None:
        """The next master's workers take longer to load than an address that nobody holds stays open."""
        self.keeping.hold_back()
        address, listener = self.freed()
        inode = os.fstat(listener.fileno()).st_ino
        listener.close()
        self.assertTrue(self.turn(lambda: self.keeping.freed))
        with connected(address) as waits:
            one = self.given(address)
            one.accept()[0].close()
            self.assertEqual((os.fstat(one.fileno()).st_ino, waits.recv(1)), (inode, b""))
        self.assertTrue(self.turn(lambda: not self.keeping.freed))
        one.close()
        self.holds.pop().close()
        self.assertTrue(self.turn(lambda: self.keeping.freed))
        connected(address).close()
        self.keeping.let_close()
        self.assertNotIn(address, self.keeping.held)
        self.assertTrue(self.turn(lambda: not is_open(address)))

    def test_an_address_is_opened_anew_while_systemd_still_has_its_old_socket(self) -> None:
        address, stored = self.freed()
        self.assertTrue(self.turn(lambda: not is_open(address)))
        one = self.given(address)
        with connected(address):
            one.accept()[0].close()
        self.assertNotEqual(os.fstat(one.fileno()).st_ino, os.fstat(stored.fileno()).st_ino)

    def test_the_end_removes_files_and_a_kill_does_not(self) -> None:
        place = self.room / "site.sock"
        self.asked(str(place))
        self.assertTrue(self.turn(lambda: self.keeping.held))
        process = self.killed()
        self.assertTrue(self.turn(lambda: self.is_another(process)))
        self.assertTrue(place.exists())
        self.keeping.end()
        self.assertFalse(place.exists())

    def test_a_keeper_opens_no_address_that_it_is_given(self) -> None:
        places = [free_address() for _ in range(12)]
        for place in places:
            self.asked(place)
        self.assertTrue(self.turn(lambda: len(self.keeping.held) == len(places)))
        self.killed()
        self.keeping.bury()
        self.keeping.begin()
        with mock.patch.dict(os.environ, PREFORK_KEEPER=str(self.folder.keeper)):
            # The last one is asked for before the keeper has heard of it.
            self.keeping.hold(places[::-1])


class KeptTest(unittest.TestCase):
    def test_a_socket_that_strangers_may_hold_stays_until_they_have_finished(self) -> None:
        with mock.patch.object(keeper, "time") as clock:
            clock.monotonic.return_value = 1000.0
            kept = KeptSocket("127.0.0.1:1", mock.Mock(), has_strangers=True)
            self.assertFalse(kept.is_free(0.0))
            kept.settle()
            for seconds, wanted in ((keeper.FINISH_SECONDS, False), (keeper.FINISH_SECONDS + 0.1, True)):
                clock.monotonic.return_value = 1000.0 + seconds
                self.assertEqual(kept.is_free(0.0), wanted, seconds)
            kept.holders = 1
            self.assertFalse(kept.is_free(0.0))

    def test_one_without_strangers_is_not_kept_for_them(self) -> None:
        kept = KeptSocket("127.0.0.1:1", mock.Mock())
        kept.settle()
        self.assertTrue(kept.is_free(0.0))


if __name__ == "__main__":
    unittest.main()
