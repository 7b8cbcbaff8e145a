"""page.py: a small server for tests. It takes its listening sockets by LISTEN_FDS, and tells NOTIFY_SOCKET once it is ready.

It answers each request with a line: `version V process P`, V from the environment (VERSION), and the status from there
too (CODE). /slow takes a second,
/held makes the file HELD and waits while that is there, /stuck stops the whole server, /print prints a line first.
SIGTERM finishes as in page.c.
"""
import asyncio
import os
import pathlib
import signal
import socket
import time

FIRST = 3
# Longer than a machine may halt: a client that asks on a kept connection must find it open.
IDLE_SECONDS = 20.0


class Page:
    def __init__(self) -> None:
        self.finishing = asyncio.Event()
        self.open: set[asyncio.Task] = set()

    def accept(self, listener: socket.socket) -> None:
        """Takes a connection. Its task begins here and now: a server of asyncio that is closed at this moment would lose
        it."""
        try:
            connection, _ = listener.accept()
        except BlockingIOError:
            return
        task = asyncio.get_running_loop().create_task(self.converse(connection))
        self.open.add(task)
        task.add_done_callback(self.open.discard)

    async def converse(self, connection: socket.socket) -> None:
        connection.setblocking(False)
        reader, writer = await asyncio.open_connection(sock=connection)
        try:
            while await self.answer_next(reader, writer):
                pass
        except (OSError, TimeoutError, asyncio.IncompleteReadError):
            pass
        finally:
            writer.close()

    async def head_of(self, reader: asyncio.StreamReader) -> bytes | None:
        """The next request; None if the connection stays idle after the end has begun."""
        asked = asyncio.ensure_future(reader.readuntil(b"\r\n\r\n"))
        finishing = asyncio.ensure_future(self.finishing.wait())
        await asyncio.wait({asked, finishing}, return_when=asyncio.FIRST_COMPLETED)
        finishing.cancel()
        if not asked.done():
            await asyncio.wait({asked}, timeout=IDLE_SECONDS)
        if asked.done():
            return asked.result()
        asked.cancel()
        return None

    async def answer_next(self, reader: asyncio.StreamReader, writer: asyncio.StreamWriter) -> bool:
        head = await self.head_of(reader)
        if head is None:
            return False
        path = head.split(b" ", 2)[1]
        if path == b"/slow":
            await asyncio.sleep(1)
        if path == b"/held":
            await hold(pathlib.Path(os.environ["HELD"]))
        if path == b"/stuck":
            time.sleep(3600)
        if path == b"/print":
            print("pong", flush=True)
        body = f"version {os.environ.get('VERSION', '1')} process {os.getpid()}\n"
        keeps = not self.finishing.is_set() and b"\r\nconnection: close" not in head.lower()
        manner = "keep-alive" if keeps else "close"
        writer.write(
            f"HTTP/1.1 {os.environ.get('CODE', '200')} Told\r\nContent-Type: text/plain\r\nContent-Length: {len(body)}\r\nConnection: {manner}\r\n\r\n{body}".encode()
        )
        await writer.drain()
        if not keeps:
            writer.write_eof()
            await asyncio.wait_for(reader.read(), 1.0)
        return keeps


async def hold(file: pathlib.Path) -> None:
    file.touch()
    while file.exists():
        await asyncio.sleep(0.02)


def notify(text: str) -> None:
    place = os.environ.get("NOTIFY_SOCKET", "")
    if place:
        with socket.socket(socket.AF_UNIX, socket.SOCK_DGRAM) as told:
            told.sendto(text.encode(), place)


async def main() -> None:
    page = Page()
    assert int(os.environ["LISTEN_PID"]) == os.getpid()
    given = [socket.socket(fileno=FIRST + at) for at in range(int(os.environ["LISTEN_FDS"]))]
    loop = asyncio.get_running_loop()
    for listener in given:
        loop.add_reader(listener, page.accept, listener)
    loop.add_signal_handler(signal.SIGTERM, page.finishing.set)
    notify("STATUS=serves\nREADY=1")
    await page.finishing.wait()
    for listener in given:
        loop.remove_reader(listener)
        listener.close()
    while page.open:
        await asyncio.wait(page.open)


if __name__ == "__main__":
    asyncio.run(main())
