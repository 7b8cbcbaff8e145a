"""The queues of addresses, and what processes take."""
import pathlib
import socket
import subprocess
import sys
import tempfile
import time
import unittest
from unittest import mock

from kit import PROGRAMS, clock_ahead, has_ipv6, until
from prefork_service import measures, queues
from prefork_service.addresses import text_of
from prefork_service.measures import Measures, processor_seconds_of
from prefork_service.queues import Queues
from prefork_service.sockets import inode_of
from prefork_service.status import shown_queue
from prefork_service.top import drawn, shares

CROWD = 5000


class QueueTest(unittest.TestCase):
    def setUp(self) -> None:
        self.clients, self.queues = list[socket.socket](), Queues()
        self.addCleanup(lambda: [client.close() for client in self.clients])
        self.addCleanup(self.queues.end)

    def test_connections_that_wait_at_both_kinds_of_sockets(self) -> None:
        with tempfile.TemporaryDirectory() as room, socket.socket() as tcp, socket.socket(socket.AF_UNIX) as unix:
            tcp.bind(("127.0.0.1", 0))
            tcp.listen(50)
            path = str(pathlib.Path(room) / "s")
            unix.bind(path)
            unix.listen(40)
            for _ in range(30):
                self.clients.append(socket.create_connection(tcp.getsockname()))
            for _ in range(20):
                self.clients.append(socket.socket(socket.AF_UNIX))
                self.clients[-1].connect(path)
            held = {path: inode_of(unix), "t": inode_of(tcp)}
            wanted = [{"address": path, "waiting": 20, "most": 40, "dropped": 0}, {"address": "t", "waiting": 30, "most": 50, "dropped": 0}]
            self.assertTrue(until(lambda: self.queues.of(held) == wanted), self.queues.of(held))
            self.assertEqual(shown_queue(wanted[1]), "queue       t: 30 of at most 50 connections wait")
            tcp.accept()[0].close()
            self.assertEqual(self.queues.of({"t": inode_of(tcp)})[0]["waiting"], 29)
        self.assertEqual(self.queues.of({"t": held["t"], path: held[path]}), [])

    def test_one_connection_to_the_system_serves_all_questions(self) -> None:
        with socket.socket() as tcp, socket.socket(socket.AF_INET6) if has_ipv6() else socket.socket() as other:
            for one in (tcp, other):
                one.listen(10)
            held = {text_of(one.getsockname()): inode_of(one) for one in (tcp, other)}
            with mock.patch.object(queues.socket, "socket", wraps=socket.socket) as made:
                for _ in range(3):
                    self.assertEqual(sorted(queue["address"] for queue in self.queues.of(held)), sorted(held))
                self.assertEqual(made.call_count, 1)

    def test_an_answer_to_an_earlier_question_is_passed_over(self) -> None:
        with socket.socket() as tcp:
            tcp.listen(10)
            held = {"t": inode_of(tcp)}
            body = queues.struct.pack(queues.ASKED_TCP, socket.AF_INET, socket.IPPROTO_TCP, 0, 0, queues.LISTENS)
            # (a question whose answers nobody reads)
            next(self.queues.asker.answers(body, queues.ALL))
            self.assertEqual(self.queues.of(held)[0]["most"], 10)

    def test_a_connection_that_has_failed_is_made_again(self) -> None:
        with socket.socket() as tcp:
            tcp.listen(10)
            held = {"t": inode_of(tcp)}
            self.assertEqual(len(self.queues.of(held)), 1)
            self.queues.asker.opened().close()
            self.assertEqual((self.queues.of(held), len(self.queues.of(held))), ([], 1))

    def test_five_thousand_connections(self) -> None:
        """In a network of its own, where that is allowed; else as many as the system lets wait."""
        most = int(pathlib.Path("/proc/sys/net/core/somaxconn").read_text())
        own = ["unshare", "--net", "sh", "-c", f'ip link set lo up && echo {2 * CROWD} >/proc/sys/net/core/somaxconn && exec "$@"', "sh"]
        try:
            is_own = not subprocess.run([*own, "true"], capture_output=True).returncode
        except OSError:
            is_own = False
        count = CROWD if is_own else min(CROWD, most)
        if count < CROWD:
            print(f"{count} connections wait in place of {CROWD}: the system allows no more, and no network of its own")
        command = [*(own if is_own else []), sys.executable, PROGRAMS / "crowd.py", str(count)]
        found = subprocess.run(command, capture_output=True, text=True, timeout=120)
        self.assertEqual(found.stdout, f"tcp {count} of {count}, 0 dropped\nunix {count} of {count}, 0 dropped\n", found.stderr)

    def test_what_a_full_queue_has_dropped(self) -> None:
        with socket.socket() as tcp:
            tcp.bind(("127.0.0.1", 0))
            tcp.listen(1)
            for _ in range(8):
                self.clients.append(socket.socket())
                self.clients[-1].setblocking(False)
                self.clients[-1].connect_ex(tcp.getsockname())
            self.assertTrue(until(lambda: self.queues.of({"t": inode_of(tcp)})[0]["dropped"] > 0))


class MeasuresTest(unittest.TestCase):
    def test_the_time_that_a_process_and_its_children_have_computed(self) -> None:
        with subprocess.Popen(["sh", "-c", "while :; do :; done & wait"]) as process:
            self.addCleanup(subprocess.run, ["true"])
            try:
                self.assertTrue(until(lambda: processor_seconds_of(process.pid) > 0.2))
            finally:
                for number in measures.tree_of(process.pid):
                    subprocess.run(["kill", "-9", str(number)], check=False)

    def test_they_are_measured_again_when_that_is_worth_it(self) -> None:
        found = Measures()
        with mock.patch.object(measures, "memory_of", side_effect=lambda process: process) as measured:
            self.assertEqual(found.of({1: 0.0})[1].memory, 1)
            found.of({1: 0.0})
            self.assertEqual(sorted(found.of({1: 0.0, 2: 0.0})), [1])
            self.assertEqual(measured.call_count, 1)
            with mock.patch.object(measures, "time", clock_ahead(measures.MEASURE_SECONDS + 0.5)):
                self.assertEqual(sorted(found.of({1: 0.0, 2: 0.0})), [1, 2])

    def test_a_process_with_the_number_of_one_that_was_measured(self) -> None:
        """What the one before has taken is not told of it."""
        found = Measures()
        with mock.patch.object(measures, "memory_of", side_effect=[5, 7]):
            self.assertEqual(found.of({1: 100.0})[1].memory, 5)
            self.assertEqual(found.of({1: 200.0}), {})
            with mock.patch.object(measures, "time", clock_ahead(measures.MEASURE_SECONDS + 0.5)):
                self.assertEqual(found.of({1: 200.0})[1].memory, 7)

    def test_a_measure_that_takes_long_is_seldom(self) -> None:
        found = Measures()
        with mock.patch.object(measures, "memory_of", side_effect=lambda process: time.sleep(0.05) or 1):
            found.of({1: 0.0})
        self.assertGreaterEqual(found.next - found.moment, 0.05 / measures.SHARE)


class TopTest(unittest.TestCase):
    def test_parts_of_a_processor_between_two_measures(self) -> None:
        worker = {"generation": "1.2", "number": 0, "process": 7, "seconds": 9, "memory": 12000000, "processor_seconds": 1.5}
        queue = {"address": "127.0.0.1:8080", "waiting": 5, "most": 1024, "dropped": 7}
        status = {"line": "serves: wanted 1, runs 1", "workers": [worker], "others": [], "queues": [queue], "measured": 4.0}
        later = {**status, "workers": [{**worker, "processor_seconds": 2.0}], "measured": 6.0}
        self.assertEqual((shares(status, None), shares(status, status), shares(later, status)), ({}, {}, {7: 0.25}))
        text = drawn(later, {7: 0.25})
        self.assertIn("1.2.0             7        9     25.0       12\n", text)
        self.assertIn("127.0.0.1:8080: 5 of 1024 wait, 7 dropped\n", text)
        ended = drawn({**status, "workers": [{**worker, "process": None, "seconds": None, "memory": None}]}, {})
        self.assertIn("has ended", ended)


if __name__ == "__main__":
    unittest.main()
