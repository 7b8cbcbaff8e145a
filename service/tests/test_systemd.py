"""Sockets that systemd stores."""
import os
import pathlib
import socket
import subprocess
import tempfile
import unittest
from unittest import mock

from kit import PYTHON, SERVICE
from prefork_service.systemd import Watchdog, notify, store, unstore

SHOWS = "from prefork_service.inheriting import of_systemd; print(sorted(of_systemd()))"
STARTS = 'exec 3<&"$1" 4<&"$2" 5<&"$3"; LISTEN_PID=${4:-$$} LISTEN_FDS=3 exec "$5" -c "$6"'


class SystemdTest(unittest.TestCase):
    def test_sockets_are_given_and_taken_back(self) -> None:
        with tempfile.TemporaryDirectory() as room, socket.socket(socket.AF_UNIX, socket.SOCK_DGRAM) as systemd:
            place = str(pathlib.Path(room) / "notify")
            systemd.bind(place)
            with mock.patch.dict(os.environ, NOTIFY_SOCKET=place), socket.socket() as one:
                store("127.0.0.1:80", one)
                said, given, _, _ = socket.recv_fds(systemd, 200, 1)
                self.assertEqual(said, b"FDSTORE=1\nFDNAME=127.0.0.1_port_80\nFDPOLL=0")
                self.assertEqual(os.fstat(given[0]).st_ino, os.fstat(one.fileno()).st_ino)
                os.close(given[0])
                unstore("127.0.0.1:80")
                self.assertEqual(systemd.recv(200), b"FDSTOREREMOVE=1\nFDNAME=127.0.0.1_port_80")

    def test_nobody_is_told_where_nobody_listens(self) -> None:
        with mock.patch.dict(os.environ, NOTIFY_SOCKET="/nowhere/notify"):
            notify("READY=1")

    def test_a_watchdog_is_told_twice_in_its_time(self) -> None:
        with mock.patch("prefork_service.systemd.notify") as told, mock.patch("time.monotonic") as clock:
            for environment, wanted in (
                ({"WATCHDOG_USEC": "2000000"}, 10), ({}, 0), ({"WATCHDOG_USEC": "2000000", "WATCHDOG_PID": "1"}, 0),
                ({"WATCHDOG_USEC": "2000000", "WATCHDOG_PID": str(os.getpid())}, 10), ({"WATCHDOG_USEC": "x"}, 0),
            ):
                with mock.patch.dict(os.environ, environment):
                    watchdog = Watchdog()
                    self.assertNotIn("WATCHDOG_USEC", os.environ)
                told.reset_mock()
                for tenth in range(101):
                    clock.return_value = tenth / 10
                    watchdog.tend()
                self.assertIn(told.call_count, range(wanted, wanted + 3 if wanted else 1), environment)
                self.assertIn(watchdog.every, (1.0, 1e9))

    def shown(self, number: str) -> str:
        """The addresses that a start is given: of two that listen, one twice."""
        with tempfile.TemporaryDirectory() as room, socket.socket() as one, socket.socket(socket.AF_UNIX) as other:
            one.bind(("127.0.0.1", 0))
            one.listen()
            other.bind(f"{room}/site.sock")
            other.listen()
            numbers = [one.fileno(), other.fileno(), one.fileno()]
            # (dash reads no descriptor of two digits)
            command = ["bash", "-c", STARTS, "bash", *map(str, numbers), number, PYTHON, SHOWS]
            found = subprocess.run(command, pass_fds=set(numbers), cwd=SERVICE, capture_output=True, text=True, check=True)
            addresses = sorted(["127.0.0.1:%d" % one.getsockname()[1], f"{room}/site.sock"])
        return found.stdout.replace(str(addresses), "both").strip()

    def test_sockets_are_inherited_by_their_addresses(self) -> None:
        self.assertEqual(self.shown(""), "both")

    def test_sockets_for_another_process_are_not_taken(self) -> None:
        self.assertEqual(self.shown("1"), "[]")


if __name__ == "__main__":
    unittest.main()
