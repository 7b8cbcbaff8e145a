"""prefork-wsgi: a worker that serves a WSGI application."""
import json
import pathlib
import socket
import subprocess
import threading
import time
import unittest

from kit import BIN, PROGRAMS, WorkerTest, answer_of, free_address, until
from prefork_service.conversation import END
from prefork_service.queues import Queues
from prefork_service.traffic import Traffic


def python_with_waitress() -> str | None:
    for python in ("python3", "/usr/bin/python3"):
        try:
            if subprocess.run([python, "-c", "import waitress"], capture_output=True).returncode == 0:
                return python
        except OSError:
            continue
    return None


PYTHON = python_with_waitress()


def kept(address: str) -> socket.socket:
    host, _, port = address.rpartition(":")
    connection = socket.create_connection((host, int(port)), 20)
    return connection


def asked(connection: socket.socket, path: str = "/") -> bytes:
    """An answer on a kept connection."""
    connection.sendall(f"GET {path} HTTP/1.1\r\nHost: test\r\n\r\n".encode())
    return received(connection)


def received(connection: socket.socket) -> bytes:
    """An answer with all of its body."""
    got = b""
    while piece := connection.recv(65536):
        got += piece
        head, end, body = got.partition(b"\r\n\r\n")
        if end and len(body) >= int(head.lower().partition(b"content-length:")[2].split()[0]):
            break
    return got


def waits(address: str) -> bool:
    """Whether nobody answers at an address."""
    with kept(address) as connection:
        connection.settimeout(1)
        connection.sendall(b"GET / HTTP/1.1\r\nHost: test\r\n\r\n")
        try:
            connection.recv(10)
        except TimeoutError:
            return True
        return False


def listener_at(address: str) -> int:
    """The inode of the socket that listens at a port."""
    ending = f":{int(address.rpartition(':')[2]):04X}"
    rows = [line.split() for line in pathlib.Path("/proc/net/tcp").read_text().splitlines()]
    return next(int(row[9]) for row in rows if row[1].endswith(ending) and row[3] == "0A")


@unittest.skipUnless(PYTHON, "no Python with waitress")
class WsgiTest(WorkerTest):
    def begun(self, *options: str, application: str = "wsgi_page:application", address: str = "", **more):
        """A worker of the application, and its address."""
        address = address or free_address()
        command = [PYTHON, BIN / "prefork-wsgi", "--chdir", PROGRAMS, *options, application]
        return self.started(*command, addresses=(address,), **more), address

    def test_it_serves_and_answers_and_finishes(self) -> None:
        talk, address = self.begun()
        self.assertEqual(talk.hear(), "ready")
        self.assertIn("version 1 ", answer_of(address))
        self.assertEqual(pathlib.Path(f"/proc/{talk.process.pid}/comm").read_text(), "worker 1.1.0\n")
        talk.say("ping", "tick 12345", "usr1", "close 127.0.0.1:1", "ping", "quit")
        self.assertEqual([talk.hear() for _ in range(5)], ["pong", "beat 12345 7", "pong", "gone", END])
        self.assertEqual(talk.wait(), 0)

    def test_its_queue_is_as_long_as_the_system_allows(self) -> None:
        talk, address = self.begun()
        self.assertEqual(talk.hear(), "ready")
        most = int(pathlib.Path("/proc/sys/net/core/somaxconn").read_text())
        found, queues = {address: listener_at(address)}, Queues()
        self.addCleanup(queues.end)
        self.assertEqual([queue["most"] for queue in queues.of(found)], [min(most, 65535)])
        talk.say("quit")
        self.assertEqual((talk.hear(), talk.hear(), talk.wait()), ("gone", END, 0))

    def test_it_counts_and_logs_what_it_answers(self) -> None:
        """Each answer is counted and logged once: also that of an application that fails, and of what is no request."""
        (self.room / "traffic").mkdir()
        log, held = self.room / "access.log", self.room / "held"
        options = ("--access-log", str(log), "--access-form", "json", "--threads", "3", "--trusted-proxy", "127.0.0.1")
        talk, address = self.begun(*options, HELD=str(held), PREFORK_FOLDER=str(self.room), PREFORK_WORKER="1.1.0")
        self.assertEqual(talk.hear(), "ready")
        traffic = Traffic(self.room / "traffic")

        def counted() -> dict[str, int]:
            traffic.look()
            return traffic.of(talk.process.pid) or {}
        with kept(address) as one:
            bodies = []
            one.sendall(b"GET /held HTTP/1.1\r\nHost: test\r\nConnection: close\r\n\r\n")
            self.assertTrue(until(lambda: counted() == {"count": 0, "busy": 1, "threads": 3}), counted())
            held.unlink()
            bodies.append(received(one).partition(b"\r\n\r\n")[2])
        for request in (
            b"GET / HTTP/1.1\r\nHost: test\r\nX-Forwarded-For: 10.1.2.3\r\nUser-Agent: me\r\nConnection: close\r\n\r\n",
            b"HEAD / HTTP/1.1\r\nHost: test\r\nConnection: close\r\n\r\n", b"GET /bad HTTP/1.1\r\nContent-Length: x\r\n\r\n",
            b"GET /raise?x=1 HTTP/1.1\r\nHost: test\r\nConnection: close\r\n\r\n",
            b"GET /pieces HTTP/1.1\r\nHost: test\r\nConnection: close\r\n\r\n",
        ):
            with kept(address) as one, one.makefile("rb") as got:
                one.sendall(request)
                bodies.append(got.read().partition(b"\r\n\r\n")[2])
        self.assertTrue(until(lambda: counted() == {"count": 6, "busy": 0, "threads": 3}), counted())
        moved = self.room / "moved"
        log.rename(moved)
        talk.say("usr1", "ping")
        self.assertEqual(talk.hear(), "pong")
        lines = [json.loads(line) for line in moved.read_text().splitlines()]
        told = [(line["method"], line["target"], line["status"], line["client"]) for line in lines]
        self.assertEqual(told, [
            ("GET", "/held", 200, "127.0.0.1"), ("GET", "/", 200, "10.1.2.3"), ("HEAD", "/", 200, "127.0.0.1"),
            ("GET", "/bad", 400, "127.0.0.1"), ("GET", "/raise?x=1", 500, "127.0.0.1"), ("GET", "/pieces", 200, "127.0.0.1"),
        ])
        self.assertEqual({line["worker"] for line in lines}, {"1.1.0"})
        self.assertEqual([line["size"] for line in lines], [len(body) for body in bodies])
        self.assertEqual(lines[1]["agent"], "me")
        self.assertGreater(lines[0]["seconds"], lines[1]["seconds"])
        answer_of(address)
        talk.say("quit")
        self.assertEqual((talk.hear(), talk.wait()), ("gone", 0))
        # The last lines are there, and the last counts.
        self.assertEqual(len(log.read_text().splitlines()), 1)
        traffic.look()
        self.assertEqual((traffic.told() or {})["classes"], {"1xx": 0, "2xx": 5, "3xx": 0, "4xx": 1, "5xx": 1})

    def test_nothing_of_the_application_reaches_the_master(self) -> None:
        talk, address = self.begun(PREFORK_FOLDER="x", NOTIFY_SOCKET="y")
        self.assertEqual(talk.hear(), "ready")
        for path in ("/print", "/fork"):
            self.assertIn("version 1 ", answer_of(address, path))
        names = answer_of(address, "/environment").split()
        self.assertFalse([name for name in names if name.startswith(("PREFORK_", "NOTIFY_"))], names)
        talk.say("quit")
        self.assertEqual((talk.hear(), talk.hear()), ("gone", END))

    def test_quit_answers_what_has_begun(self) -> None:
        held = self.room / "held"
        talk, address = self.begun("--idle", "30", HELD=str(held))
        talk.hear()
        answers, slow, idle = [], kept(address), kept(address)
        asked(slow)
        asked(idle)
        thread = threading.Thread(target=lambda: answers.append(asked(slow, "/held")))
        thread.start()
        # A request of which only a part has come.
        partial = kept(address)
        partial.sendall(b"GET / HTTP/1.1\r\nHost: test\r\n")
        self.assertTrue(until(held.exists))
        time.sleep(0.3)
        # It has heard the first line once it answers the second.
        talk.say("quit", "ping")
        self.assertEqual(talk.hear(), "pong")
        last = asked(idle)
        partial.sendall(b"\r\n")
        self.assertIn(b"200 OK", received(partial))
        held.unlink()
        thread.join()
        for answer in (answers[0], last):
            self.assertIn(b"200 OK", answer)
            self.assertIn(b"connection: close", answer.lower())
        self.assertEqual((talk.hear(), talk.wait()), ("gone", 0))
        for connection in (slow, idle, partial):
            connection.close()

    def test_an_idle_connection_is_kept_in_service_and_closed_at_the_end(self) -> None:
        talk, address = self.begun()
        talk.hear()
        idle = kept(address)
        asked(idle)
        time.sleep(3)
        self.assertIn(b"version 1 ", asked(idle))
        talk.say("quit")
        self.assertEqual((talk.hear(), talk.wait(), idle.recv(10)), ("gone", 0, b""))
        idle.close()

    def test_a_clock_on_the_wall_that_is_set_closes_nothing_and_holds_nothing_up(self) -> None:
        talk, address = self.begun("--finish", "3600")
        talk.hear()
        idle = kept(address)
        asked(idle)
        with kept(address) as other:
            asked(other, "/clock/200000")
        # (waitress looks each second)
        time.sleep(3)
        self.assertIn(b"version 1 ", asked(idle))
        asked(idle, "/clock/-200000")
        talk.say("quit")
        self.assertEqual((talk.hear(), talk.wait(), idle.recv(10)), ("gone", 0, b""))
        idle.close()

    def test_requests_that_never_end(self) -> None:
        talk, address = self.begun("--threads", "2", "--timeout", "4")
        self.assertEqual(talk.hear(), "ready")
        stuck = [kept(address) for _ in range(2)]
        stuck[0].sendall(b"GET /stuck HTTP/1.1\r\nHost: test\r\n\r\n")
        # One that hangs leaves the other thread.
        time.sleep(5)
        self.assertIn("version 1 ", answer_of(address))
        stuck[1].sendall(b"GET /stuck HTTP/1.1\r\nHost: test\r\n\r\n")
        self.assertEqual((talk.hear(), talk.wait()), (END, 1))
        for connection in stuck:
            connection.close()

    def test_a_request_that_takes_too_long_ends_its_worker_after_the_others(self) -> None:
        held, reasons = self.room / "held", self.room / "reasons"
        reasons.touch()
        folder = {"HELD": str(held), "PREFORK_FOLDER": str(self.room), "PREFORK_WORKER": "1.1.0"}
        talk, address = self.begun("--request-timeout", "20", "--finish", "60", **folder)
        self.assertEqual(talk.hear(), "ready")
        late, other = kept(address), kept(address)
        late.sendall(b"GET /stuck?key=secret HTTP/1.1\r\nHost: test\r\n\r\n")
        time.sleep(12)
        other.sendall(b"GET /held HTTP/1.1\r\nHost: test\r\n\r\n")
        self.assertTrue(until(held.exists))
        self.assertTrue(until(reasons.read_text))
        said = "1.1.0 has been at a request for more than 20 seconds, and ends, once 1 other is answered: GET /stuck\n"
        self.assertEqual(reasons.read_text(), said)
        # It accepts no more, and answers its master and the other request, which has its own time.
        self.assertTrue(until(lambda: waits(address)))
        talk.say("tick 7")
        self.assertEqual(talk.hear(), "beat 7 7")
        held.unlink()
        self.assertIn(b"Connection: close", received(other))
        self.assertEqual((talk.hear(), talk.wait(), reasons.read_text()), (END, 0, said))
        with self.assertRaises(OSError):
            self.assertEqual(late.recv(10), b"")
            raise ConnectionResetError
        for connection in (late, other):
            connection.close()

    def test_a_request_that_takes_too_long_beside_others_that_do_is_not_waited_for(self) -> None:
        talk, address = self.begun("--request-timeout", "2", "--finish", "600")
        self.assertEqual(talk.hear(), "ready")
        late = [kept(address) for _ in range(3)]
        for connection in late:
            connection.sendall(b"GET /stuck HTTP/1.1\r\nHost: test\r\n\r\n")
        self.assertEqual((talk.hear(), talk.wait()), (END, 0))
        for connection in late:
            connection.close()
        # Told to finish, it has the same limit.
        talk, address = self.begun("--request-timeout", "3", "--finish", "600")
        self.assertEqual(talk.hear(), "ready")
        stuck = kept(address)
        stuck.sendall(b"GET /stuck HTTP/1.1\r\nHost: test\r\n\r\n")
        time.sleep(0.5)
        talk.say("quit")
        self.assertEqual((talk.hear(), talk.wait()), ("gone", 0))
        stuck.close()

    def test_a_slow_download_takes_no_time(self) -> None:
        talk, address = self.begun("--request-timeout", "4")
        self.assertEqual(talk.hear(), "ready")
        with kept(address) as client:
            client.sendall(b"GET /big HTTP/1.1\r\nHost: test\r\nConnection: close\r\n\r\n")
            self.assertIn(b"200 OK", client.recv(100))
            time.sleep(8)
            with client.makefile("rb") as got:
                self.assertGreater(len(got.read()), 39_000_000)
        self.assertIn("version 1 ", answer_of(address))
        talk.say("quit")
        self.assertEqual((talk.hear(), talk.wait()), ("gone", 0))

    def test_slow_downloads_are_no_requests_that_never_end(self) -> None:
        # (a starved application may take a while before its answer waits for the client)
        talk, address = self.begun("--threads", "2", "--timeout", "6")
        self.assertEqual(talk.hear(), "ready")
        slow = [kept(address) for _ in range(2)]
        for connection in slow:
            connection.sendall(b"GET /big HTTP/1.1\r\nHost: test\r\nConnection: close\r\n\r\n")
            self.assertIn(b"200 OK", connection.recv(100))
        # Both threads wait for their clients for longer than a request may take.
        time.sleep(9)
        for connection in slow:
            with connection, connection.makefile("rb") as got:
                self.assertGreater(len(got.read()), 40_000_000)
        self.assertIn("version 1 ", answer_of(address))
        talk.say("quit")
        self.assertEqual((talk.hear(), talk.wait()), ("gone", 0))

    def test_a_client_that_takes_nothing_is_dropped(self) -> None:
        talk, address = self.begun("--threads", "1", "--timeout", "20", "--keep", "3")
        self.assertEqual(talk.hear(), "ready")
        with kept(address) as client:
            client.sendall(b"GET /big HTTP/1.1\r\nHost: test\r\n\r\n")
            self.assertIn("version 1 ", answer_of(address))
        talk.say("quit")
        self.assertEqual((talk.hear(), talk.wait()), ("gone", 0))

    def test_few_descriptors_are_few_connections(self) -> None:
        said = self.room / "said"
        command = f'ulimit -n 100; exec {PYTHON} {BIN / "prefork-wsgi"} --chdir {PROGRAMS} wsgi_page:application 2>{said}'
        address = free_address()
        talk = self.started("sh", "-c", command, addresses=(address,))
        self.assertEqual(talk.hear(), "ready")
        many = [kept(address) for _ in range(120)]
        for connection in many[:30]:
            self.assertIn(b"version 1 ", asked(connection))
        for connection in many:
            connection.close()
        self.assertIn("version 1 ", answer_of(address))
        self.assertNotIn("Too many open files", said.read_text())
        talk.say("quit")
        self.assertEqual((talk.hear(), talk.wait()), ("gone", 0))

    def test_clients_that_never_ask_for_anything_whole_make_way_where_connections_run_out(self) -> None:
        # (64 descriptors are left to the application)
        command = f'ulimit -n 84; exec {PYTHON} {BIN / "prefork-wsgi"} --chdir {PROGRAMS} wsgi_page:application'
        address = free_address()
        talk = self.started("sh", "-c", command, addresses=(address,))
        self.assertEqual(talk.hear(), "ready")
        self.assertIn("version 1 ", answer_of(address, "/hurry"))
        slow = [kept(address) for _ in range(40)]
        for connection in slow:
            connection.sendall(b"G")
        self.assertTrue(until(lambda: not waits(address)))
        self.assertIn("version 1 ", answer_of(address))
        for connection in slow:
            connection.close()
        talk.say("quit")
        self.assertEqual((talk.hear(), talk.wait()), ("gone", 0))

    def test_requests_that_waitress_refuses(self) -> None:
        talk, address = self.begun()
        talk.hear()
        wrong = (
            b"Content-Length: 3\r\nContent-Length: 4\r\n", b"Transfer-Encoding: x\r\n", b"Content-Length: x\r\n",
            b"A\nB: c\r\n",
        )
        for header in wrong:
            connection = kept(address)
            connection.sendall(b"POST /size HTTP/1.1\r\nHost: test\r\n" + header + b"\r\nabcd")
            status = connection.recv(65536).split(b" ")[1]
            self.assertIn(status[:1], (b"4", b"5"), header)
            connection.close()
        connection = kept(address)
        connection.sendall(b"POST /size HTTP/1.1\r\nHost: test\r\nTransfer-Encoding: chunked\r\n\r\n3\r\nabc\r\n0\r\n\r\n")
        self.assertTrue(received(connection).endswith(b"\r\n\r\n3\n"))
        connection.close()

    def test_a_stop_has_its_limit(self) -> None:
        talk, address = self.begun("--finish", "0.5")
        talk.hear()
        stuck = kept(address)
        stuck.sendall(b"GET /stuck HTTP/1.1\r\nHost: test\r\n\r\n")
        time.sleep(0.3)
        talk.say("quit")
        self.assertEqual((talk.hear(), talk.wait()), ("gone", 0))
        stuck.close()

    def test_applications_that_cannot_be_served(self) -> None:
        for name, text in (("fails", "1 / 0"), ("exits", "import sys; sys.exit(0)"), ("lacks", "other = 1"), ("syntax", "def")):
            (self.room / f"{name}.py").write_text(text)
            talk, _ = self.begun("--chdir", str(self.room), application=name)
            self.assertEqual((talk.hear(), talk.wait()), (END, 1), name)
            (self.room / f"{name}.py").unlink()

    def test_an_application_that_hangs_at_its_start(self) -> None:
        (self.room / "hangs.py").write_text("import time; time.sleep(3600)")
        talk, _ = self.begun("--chdir", str(self.room), "--ready-within", "5", application="hangs")
        talk.say("ping")
        self.assertEqual((talk.hear(), talk.hear(), talk.wait()), ("pong", END, 1))
        (self.room / "hangs.py").unlink()

    def test_a_version_that_was_late_is_not_waited_for_again(self) -> None:
        (self.room / "hangs.py").write_text("import time; time.sleep(3600)")
        late = self.room / "commands" / "late"
        late.parent.mkdir()
        late.touch()
        for number, noted in ((0, "1.2\n"), (1, "1.2\n")):
            more = {"PREFORK_FOLDER": str(self.room), "PREFORK_WORKER": f"1.2.{number}"}
            limit = "3" if not number else "86400"
            talk, _ = self.begun("--chdir", str(self.room), "--ready-within", limit, application="hangs", **more)
            self.assertEqual((talk.hear(), talk.wait(), late.read_text()), (END, 1, noted))
        late.unlink()
        late.parent.rmdir()
        (self.room / "hangs.py").unlink()

    def test_a_worker_notes_that_it_is_ready_while_its_version_is_tried(self) -> None:
        (self.room / "hangs.py").write_text("import time; time.sleep(3600)")
        noted = self.room / "commands" / "ready"
        noted.parent.mkdir()
        noted.touch()
        more = {"PREFORK_FOLDER": str(self.room), "PREFORK_WORKER": "1.2.0"}
        talk, _ = self.begun("--chdir", str(self.room), "--ready-within", "3", application="hangs", **more)
        self.assertEqual((talk.hear(), talk.wait(), noted.read_text()), (END, 1, ""))
        talk, _ = self.begun(**more)
        self.assertEqual(talk.hear(), "ready")
        self.assertTrue(until(lambda: noted.read_text() == f"1.2.0 {talk.process.pid}\n"), noted.read_text())
        talk.say("quit")
        talk.wait()
        noted.unlink()
        noted.parent.rmdir()
        (self.room / "hangs.py").unlink()

    def test_the_end_of_input_and_a_master_that_has_gone(self) -> None:
        talk, _ = self.begun()
        talk.hear()
        talk.process.stdin.close()
        self.assertEqual((talk.rest(), talk.wait()), (b"", 0))
        talk, _ = self.begun(go=False)
        talk.process.stdout.close()
        talk.say("go")
        self.assertEqual(talk.wait(), 0)

    def test_lines_that_no_master_says(self) -> None:
        for line in ("pi", "tick", "x" * 5000):
            talk, _ = self.begun()
            talk.hear()
            talk.say(line)
            self.assertEqual((talk.hear(), talk.wait()), (END, 1), line)

    def test_a_probe_is_answered_before_it_serves(self) -> None:
        """The application imports its pages at the first request."""
        text = "def application(environ, start):\n    %s\n    start('200 OK', [('Content-Length', '1')])\n    return [b'\\n']\n"
        for page, wanted in (("import sys", "ready"), ("1 / 0", END)):
            (self.room / "late.py").write_text(text % page)
            talk, _ = self.begun("--chdir", str(self.room), "--probe", "/", application="late")
            self.assertEqual(talk.hear(), wanted)
        self.assertEqual(talk.wait(), 1)
        (self.room / "late.py").unlink()

    def test_what_an_application_is_told_of_a_request(self) -> None:
        names = "REMOTE_ADDR", "SERVER_NAME", "SERVER_PORT", "wsgi.url_scheme", "wsgi.multiprocess"
        text = f"def application(environ, start):\n    text = repr([environ[name] for name in {names}]).encode()\n"
        text += "    start('200 OK', [('Content-Length', str(len(text)))])\n    return [text]\n"
        (self.room / "tells.py").write_text(text)
        head = b"GET / HTTP/1.1\r\nHost: site.example\r\nX-Forwarded-For: 192.0.2.7\r\nX-Forwarded-Proto: https\r\n\r\n"
        for options in ((), ("--trusted-proxy", "127.0.0.1")):
            talk, address = self.begun("--chdir", str(self.room), *options, application="tells")
            self.assertEqual(talk.hear(), "ready")
            with kept(address) as connection:
                connection.sendall(head)
                got = received(connection).partition(b"\r\n\r\n")[2].decode()
            host, _, port = address.partition(":")
            wanted = ["192.0.2.7", "site.example", "443", "https", True] if options else [host, host, port, "http", True]
            self.assertEqual(got, repr(wanted))
        (self.room / "tells.py").unlink()

    def test_a_unix_socket(self) -> None:
        place = str(self.room / "site.sock")
        talk, _ = self.begun(address=place)
        self.assertEqual(talk.hear(), "ready")
        with socket.socket(socket.AF_UNIX) as connection:
            connection.connect(place)
            self.assertIn(b"version 1 ", asked(connection))
        talk.say("quit")
        self.assertEqual((talk.hear(), talk.wait()), ("gone", 0))

    def test_logs_are_reopened(self) -> None:
        log = self.room / "log"
        text = f"import logging\nlogging.getLogger().addHandler(logging.FileHandler({str(log)!r}))\n"
        text += "def application(environ, start):\n    logging.warning('asked')\n    start('200 OK', [('Content-Length', '1')])\n    return [b'\\n']\n"
        (self.room / "logs.py").write_text(text)
        talk, address = self.begun("--chdir", str(self.room), application="logs")
        talk.hear()
        answer_of(address)
        log.rename(self.room / "log.1")
        talk.say("usr1", "ping")
        talk.hear()
        answer_of(address)
        self.assertTrue(log.exists())


if __name__ == "__main__":
    unittest.main()
