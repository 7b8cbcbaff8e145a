"""Pages over HTTP that only read."""
import pathlib
import selectors
import socket
import tempfile
import threading
import time
import unittest
from unittest import mock

from kit import clock_ahead, free_address, until
from prefork_service import web
from prefork_service.web import MOST_VISITS, Site, opened

BIG = "x" * 5_000_000


class WebTest(unittest.TestCase):
    def setUp(self) -> None:
        self.address, self.events, self.is_over = free_address(), selectors.DefaultSelector(), False
        pages = {"/": lambda: ("text/html", "<p>page</p>"), "/big": lambda: ("text/plain", BIG)}
        self.site = Site(self.events, self.address, pages, ["status.example.org"])
        self.thread = threading.Thread(target=self.turn)
        self.thread.start()
        self.addCleanup(self.end)

    def turn(self) -> None:
        while not self.is_over:
            for key, _ in self.events.select(0.05):
                key.data(key.fileobj)
            self.site.tend()

    def end(self) -> None:
        self.is_over = True
        self.thread.join()
        self.site.end()

    def visitor(self) -> socket.socket:
        host, _, port = self.address.rpartition(":")
        client = socket.create_connection((host, int(port)), 20)
        self.addCleanup(client.close)
        return client

    def asked(self, *pieces: str) -> tuple[str, str]:
        client = self.visitor()
        for piece in pieces:
            client.sendall(piece.encode())
            time.sleep(0.1)
        with client.makefile("rb") as got:
            head, _, body = got.read().decode().partition("\r\n\r\n")
        return head, body

    def test_a_page(self) -> None:
        head, body = self.asked(f"GET / HTTP/1.1\r\nHost: {self.address}\r\n\r\n")
        self.assertTrue(head.startswith("HTTP/1.1 200 OK\r\nContent-Type: text/html\r\nContent-Length: 11\r\n"), head)
        self.assertIn("default-src 'none'", head)
        self.assertEqual(body, "<p>page</p>")
        self.assertEqual(self.asked("HEAD /?x=1 HTTP/1.0\r\n\r\n")[1], "")

    def test_a_question_in_pieces(self) -> None:
        self.assertEqual(self.asked("GE", "T / HTTP", f"/1.1\r\nHost: {self.address}\r", "\n\r\n")[1], "<p>page</p>")

    def test_what_is_no_reading_of_a_page(self) -> None:
        for line, status in (("POST / HTTP/1.1", 405), ("GET /x HTTP/1.1", 404), ("GET /../ HTTP/1.1", 404), ("hello", 400),
                             ("GET / FTP/1.1", 400), ("DELETE / HTTP/1.1", 405)):
            self.assertTrue(self.asked(f"{line}\r\n\r\n")[0].startswith(f"HTTP/1.1 {status} "), line)
        self.assertTrue(self.asked("GET /" + "x" * 9000)[0].startswith("HTTP/1.1 400 "))

    def test_a_page_of_somebody_else_whose_name_leads_here_reads_nothing(self) -> None:
        port = self.address.rpartition(":")[2]
        for host, status in (
            (self.address, 200), (f"localhost:{port}", 200), ("status.example.org", 200), ("STATUS.example.org:8443", 200),
            ("evil.example", 421), (f"evil.example:{port}", 421), ("localhost", 421), ("localhost:1", 421), ("127.0.0.1", 421),
            (f"127.0.0.2:{port}", 421), ("", 421), ("x.status.example.org", 421), (f"{self.address}\r\nHost: evil.example", 400),
        ):
            with self.subTest(host):
                head, body = self.asked(f"GET / HTTP/1.1\r\nhOST:  {host}\r\n\r\n")
                self.assertTrue(head.startswith(f"HTTP/1.1 {status} "), head)
                self.assertEqual(body == "<p>page</p>", status == 200)
        said = self.asked("GET / HTTP/1.1\r\nHost: evil\x1b.example\r\n\r\n")[1]
        self.assertEqual(said, web.ELSEWHERE.format("evil?.example", self.address))

    def test_a_visitor_that_reads_slowly_gets_it_all_and_delays_nobody(self) -> None:
        slow = self.visitor()
        slow.sendall(b"GET /big HTTP/1.1\r\n\r\n")
        time.sleep(0.2)
        self.assertEqual(self.asked("GET / HTTP/1.1\r\n\r\n")[1], "<p>page</p>")
        with slow.makefile("rb") as got:
            self.assertEqual(len(got.read().partition(b"\r\n\r\n")[2]), len(BIG))

    def test_those_that_take_too_long_are_dropped(self) -> None:
        silent, stuck = self.visitor(), self.visitor()
        silent.sendall(b"GET / ")
        stuck.sendall(b"GET /big HTTP/1.1\r\n\r\n")
        self.assertTrue(until(lambda: sorted(it.is_answered for it in [*self.site.visits.values()]) == [False, True]))
        with mock.patch.object(web, "time", clock_ahead(web.VISIT_SECONDS)):
            self.assertEqual(silent.recv(100), b"")
            self.assertTrue(until(lambda: not self.site.visits))

    def test_only_so_many_at_a_time(self) -> None:
        with mock.patch.object(web, "VISIT_SECONDS", 1000.0):
            visitors = [self.visitor() for _ in range(MOST_VISITS + 5)]
            for visitor in visitors:
                visitor.sendall(b"GET / ")
            self.assertEqual(visitors[0].recv(100), b"")
            self.assertEqual(self.asked("GET / HTTP/1.1\r\n\r\n")[1], "<p>page</p>")
            self.assertLessEqual(len(self.site.visits), MOST_VISITS)

    def test_only_so_many_may_say_nothing(self) -> None:
        with mock.patch("prefork_service.door.SILENT_SECONDS", 1000.0):
            silent = [self.visitor() for _ in range(web.MOST_SILENT_VISITORS + 1)]
            self.assertEqual(silent[0].recv(100), b"")
            self.assertEqual(self.asked("GET / HTTP/1.1\r\n\r\n")[1], "<p>page</p>")

    def test_one_that_is_dropped_for_another_is_not_heard_in_the_same_turn(self) -> None:
        """The turn has events of both: of the newcomer, and of the oldest one, which makes way."""
        self.is_over = True
        self.thread.join()
        with mock.patch.object(web, "VISIT_SECONDS", 1000.0):
            old = [self.visitor() for _ in range(MOST_VISITS)]
            for visitor in old:
                visitor.sendall(b"G")
            while len(self.site.visits) < MOST_VISITS:
                for key, _ in self.events.select(0.05):
                    key.data(key.fileobj)
            for visitor in [*old, *(self.visitor() for _ in range(4))]:
                visitor.sendall(b"G")
            time.sleep(0.2)
            # The door lets them in, and then all of them have something to say.
            for key, _ in self.events.select(1.0):
                if key.fileobj is self.site.listener:
                    key.data(key.fileobj)
            keys = [key for key, _ in self.events.select(1.0)]
            self.assertGreater(len(keys), MOST_VISITS)
            for key in sorted(keys, key=lambda key: key.fileobj in self.site.visits):
                key.data(key.fileobj)
            self.assertLessEqual(len(self.site.visits), MOST_VISITS)

    def test_an_address_that_cannot_be_had(self) -> None:
        for address in (self.address, "nowhere", "127.0.0.1:x", "/nowhere/x.sock"):
            with self.assertRaises(OSError, msg=address) as fault:
                opened(address)
            self.assertIn(address, str(fault.exception))
        with tempfile.TemporaryDirectory() as room:
            opened(str(pathlib.Path(room) / "x.sock")).close()


if __name__ == "__main__":
    unittest.main()
