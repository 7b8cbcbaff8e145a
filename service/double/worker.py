"""A test double: a worker of Prefork that serves a page, for the gate.

Do not serve users with it. Its HTTP takes two Content-Length headers and a bare line feed, by which a request can be
smuggled, and it has neither the answers 411 and 413 nor chunked bodies.

    worker.work(page)

obeys the lines of standard input as docs/WORKERS.md says, takes the listening sockets from the keeper, and serves
each connection in a thread of its own with `page(request)`, which gives a status and a text. Lines are heard by the
main thread alone: whatever is being served, the master is answered at once.

At `quit` no connection is accepted any more, and each one that is open gets its answers to the end: the next answer on
a kept connection says that it is the last. Then `gone` is said. At the end of input it does the same, but for `gone`,
once the service no longer needs a worker that has survived its master.
"""
import os
import select
import socket
import sys
import threading
import time

# How long a kept connection may be idle, a request may take to arrive, the requests in progress may take to end, and
# the keeper to answer. The first is longer than a machine may halt: the load counts a kept connection that ends
# before its answer as a failure.
IDLE_SECONDS = 20.0
REQUEST_SECONDS = 10.0
FINISH_SECONDS = 30.0
KEEPER_SECONDS = 10.0
MOST_CONNECTIONS = 256
# How often a worker that has survived its master looks whether it is to finish.
SURVIVAL_LOOK = 0.1
LONGEST_HEAD = 16384
LONGEST_BODY = 1 << 20
REASONS = {200: "OK", 400: "Bad Request", 404: "Not Found", 405: "Method Not Allowed", 500: "Internal Server Error"}


class Request:
    """A request, and whether its connection is kept after it."""

    def __init__(self, head, worker):
        first, *lines = head.decode("latin-1").split("\r\n")
        self.method, self.path, version = first.split(" ")
        parts = (line.partition(":") for line in lines)
        self.headers = {name.strip().lower(): value.strip() for name, _, value in parts}
        self.worker = worker
        asked = self.headers.get("connection", "").lower()
        self.keeps = asked != "close" and (version == "HTTP/1.1" or asked == "keep-alive")
        self.size = int(self.headers.get("content-length", "0"))
        if not 0 <= self.size <= LONGEST_BODY or "transfer-encoding" in self.headers:
            raise ValueError("a body that is not served here")


class Conversation:
    """The requests of one connection, answered one after another."""

    def __init__(self, client, server):
        self.client, self.server, self.unread = client, server, b""

    def hold(self):
        try:
            while self.answer_next():
                pass
        except (OSError, ValueError):
            # The client has gone, is too slow, or speaks no HTTP: nothing was asked that could be answered.
            pass
        finally:
            self.client.close()

    def answer_next(self):
        """Answers a request; whether another one may follow."""
        head = self.read_head()
        if head is None:
            return False
        request = Request(head, self.server.worker)
        self.read_body(request)
        status, text = self.server.answer(request)
        keeps = request.keeps and not self.server.finishing.is_set()
        self.write(request, status, text.encode(), keeps)
        if not keeps:
            self.see_off()
        return keeps

    def read_head(self):
        self.client.settimeout(IDLE_SECONDS)
        while b"\r\n\r\n" not in self.unread:
            if len(self.unread) > LONGEST_HEAD:
                raise ValueError("a head that is too long")
            got = self.client.recv(LONGEST_HEAD)
            if not got:
                return None
            self.unread += got
            self.client.settimeout(REQUEST_SECONDS)
        head, _, self.unread = self.unread.partition(b"\r\n\r\n")
        return head

    def read_body(self, request):
        while len(self.unread) < request.size:
            got = self.client.recv(LONGEST_HEAD)
            if not got:
                raise ValueError("a body that ends early")
            self.unread += got
        request.body, self.unread = self.unread[: request.size], self.unread[request.size :]

    def write(self, request, status, body, keeps):
        head = (
            f"HTTP/1.1 {status} {REASONS.get(status, '')}\r\nContent-Type: text/plain; charset=utf-8\r\n"
            f"Content-Length: {len(body)}\r\nConnection: {'keep-alive' if keeps else 'close'}\r\n\r\n"
        )
        self.client.settimeout(REQUEST_SECONDS)
        self.client.sendall(head.encode() + (b"" if request.method == "HEAD" else body))

    def see_off(self):
        """Ends its own side first: an answer could be lost if the client were still sending when both sides end."""
        self.client.shutdown(socket.SHUT_WR)
        self.client.settimeout(1.0)
        while self.client.recv(LONGEST_HEAD):
            pass


class Door:
    """A listening socket, and the thread that accepts its connections."""

    def __init__(self, listener, server):
        self.listener, self.server = listener, server
        self.waked, self.wake = socket.socketpair()
        self.thread = threading.Thread(target=self.accept_all, daemon=True)

    def accept_all(self):
        while True:
            ready, _, _ = select.select([self.listener, self.waked], [], [])
            if self.waked in ready:
                return
            if self.server.room.acquire(timeout=0.1):
                self.accept()

    def accept(self):
        try:
            client, _ = self.listener.accept()
        except OSError:
            # Another worker has taken it, or the client has gone.
            self.server.room.release()
            return
        self.server.serve(client)

    def close(self):
        if self.thread.is_alive():
            self.wake.send(b"x")
            self.thread.join()
        self.listener.close()


class Server:
    """The doors of a worker, and the connections that it serves."""

    def __init__(self, page):
        self.page, self.worker, self.doors = page, "", {}
        # The connection to the keeper that holds all addresses, once there is one.
        self.hold = None
        self.finishing = threading.Event()
        self.room = threading.Semaphore(MOST_CONNECTIONS)
        self.served, self.less = 0, threading.Condition()

    def open(self, address):
        listener = self.hold and asked_for(self.hold, address)
        if not listener:
            # There was no connection, or the keeper has ended since.
            self.hold = connected(address)
            listener = asked_for(self.hold, address)
        if not listener:
            sys.exit(f"worker: {address}: the keeper has gone")
        self.doors[address] = Door(listener, self)

    def begin(self):
        for door in self.doors.values():
            door.thread.start()

    def close(self, address):
        door = self.doors.pop(address, None)
        if door:
            door.close()
            release(self.hold, address)

    def serve(self, client):
        with self.less:
            self.served += 1
        threading.Thread(target=self.converse, args=(client,), daemon=True).start()

    def converse(self, client):
        try:
            Conversation(client, self).hold()
        finally:
            self.room.release()
            with self.less:
                self.served -= 1
                self.less.notify()

    def answer(self, request):
        try:
            return self.page(request)
        except Exception as fault:
            sys.stderr.write(f"worker {self.worker}: {request.path}: {fault!r}\n")
            return 500, "the page failed\n"

    def finish(self):
        """Accepts nothing more, and waits for what is served."""
        self.finishing.set()
        for address in list(self.doors):
            self.close(address)
        with self.less:
            self.less.wait_for(lambda: self.served == 0, FINISH_SECONDS)


def connected(address):
    """A connection to the keeper."""
    hold = socket.socket(socket.AF_UNIX, socket.SOCK_SEQPACKET)
    hold.settimeout(KEEPER_SECONDS)
    try:
        hold.connect(os.environ["PREFORK_KEEPER"])
    except (KeyError, OSError) as fault:
        sys.exit(f"worker: no keeper for {address}: {fault!r}")
    return hold


def asked_for(hold, address):
    """The listening socket of an address, which the connection holds; nothing if the keeper has ended. A refusal ends
    the worker."""
    try:
        hold.send(address.encode())
        said, given, _, _ = socket.recv_fds(hold, 200, 1)
    except (BrokenPipeError, ConnectionResetError):
        return None
    except OSError as fault:
        sys.exit(f"worker: no keeper for {address}: {fault!r}")
    if said and (said != b"ok" or not given):
        sys.exit(f"worker: {address}: {said.decode()[3:]}")
    return socket.socket(fileno=given[0]) if given else None


def release(hold, address):
    """Holds an address no longer."""
    try:
        hold.send(f"-{address}".encode())
    except OSError:
        # A keeper that has ended holds nothing.
        pass


def say(text):
    """Answers the master, at once. A master that has gone hears nothing, and the end of input follows."""
    try:
        os.write(1, f"{text}\n".encode())
    except BrokenPipeError:
        pass


def has_master():
    """Whether somebody reads its answers."""
    answers = select.poll()
    answers.register(1, 0)
    return not answers.poll(0)


class Worker:
    """The master's lines, and what each asks for."""

    def __init__(self, page):
        self.server, self.start, self.status, self.serves = Server(page), None, 0, False

    def obey(self, line):
        """Does what a line asks; whether the next one is heard."""
        word, *rest = line.split()
        if word == "worker":
            generation, number, self.start = rest
            self.server.worker = f"{generation}.{number}"
        elif word == "listener":
            self.server.open(rest[0])
        elif word == "go":
            if not has_master():
                # It was killed meanwhile: no request is for a worker that nobody waits for.
                return False
            self.server.begin()
            self.serves = True
            say("ready")
        elif word == "ping":
            say("pong")
        elif word == "tick" and self.start:
            say(f"beat {rest[0]} {self.start}")
        elif word == "close":
            self.server.close(rest[0])
        elif word == "quit":
            self.server.finish()
            say("gone")
            return False
        elif word != "usr1":
            raise ValueError(line)
        return True


def outlive_master():
    """Serves on after the death of the master, as long as the service wants it: while a file is there that it touches."""
    path = f"{os.environ.get('PREFORK_FOLDER')}/survivors/{os.environ.get('PREFORK_WORKER')}.{os.getpid()}"
    touched, seen = 0, time.monotonic()
    try:
        os.close(os.open(path, os.O_WRONLY | os.O_CREAT | os.O_TRUNC, 0o600))
        while time.monotonic() - seen <= FINISH_SECONDS:
            if (now := os.stat(path).st_mtime_ns) != touched:
                touched, seen = now, time.monotonic()
            time.sleep(SURVIVAL_LOOK)
        os.unlink(path)
    except OSError:
        # There is no service that wants it, or it wants it no longer.
        pass


def work(page):
    """Is a worker that serves `page`, until it is told to quit or its input ends."""
    worker = Worker(page)
    try:
        for line in sys.stdin:
            if not worker.obey(line):
                return 0
        if worker.serves:
            outlive_master()
    except (IndexError, ValueError):
        worker.status = 1
    worker.server.finish()
    return worker.status
