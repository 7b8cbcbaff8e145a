"""The connections that wait at an address to be accepted, as the system counts them.

A listening socket is known by its number (its inode), so this needs no copy of one. All TCP sockets that listen are asked for
at once, at one connection to the system that stays open."""
import contextlib
import itertools
import socket
import struct
from collections.abc import Iterator
from typing import Any

from .addresses import family_of

# Questions about sockets: the number of the family of messages, what is asked, and where an answer ends.
NETLINK_SOCK_DIAG, BY_FAMILY, IS_REQUEST, ALL = 4, 20, 1, 0x300
# Of a Unix socket one is asked for, with its lengths. Of TCP all that listen are, with what they have dropped.
SHOW_LENGTHS, LENGTHS, LISTENS, MEMORY = 0x10, 4, 1 << 10, 7
MESSAGE_HEAD, MESSAGE_PART = struct.Struct("=IHHII"), struct.Struct("=HH")
ASKED_UNIX, ANSWERED_UNIX = "=BBHIIIII", "=BBBBIII"
ASKED_TCP, ANSWERED_TCP = "=BBBBI48x", struct.Struct("=4B48x5I")
# Where the number of what was dropped is among those of the memory.
MEMINFO, DROPPED = "=9I", 8
# How long the system may take, as a structure of its own (seconds and microseconds).
ANSWER_TIME, MOST_ANSWER_BYTES = struct.pack("@ll", 1, 0), 1 << 16
AcceptQueue = dict[str, Any]


class SocketAsker:
    """A connection to the system for questions about sockets."""

    def __init__(self) -> None:
        self.socket: socket.socket | None = None
        self.numbers, self.room = itertools.count(1), bytearray(MOST_ANSWER_BYTES)

    def opened(self) -> socket.socket:
        if not self.socket:
            self.socket = socket.socket(socket.AF_NETLINK, socket.SOCK_RAW, NETLINK_SOCK_DIAG)
            # (the system waits by itself: one call for an answer)
            self.socket.setsockopt(socket.SOL_SOCKET, socket.SO_RCVTIMEO, ANSWER_TIME)
        return self.socket

    def answers(self, body: bytes, flags: int) -> Iterator[memoryview]:
        """What the system answers about sockets. Each answer is read before the next one is taken. Raises OSError."""
        asker, number = self.opened(), next(self.numbers) & 0xFFFFFFFF
        asker.send(MESSAGE_HEAD.pack(16 + len(body), BY_FAMILY, IS_REQUEST | flags, number, 0) + body)
        is_more = True
        while is_more:
            got = memoryview(self.room)[: asker.recv_into(self.room)]
            while len(got) >= 16:
                length, kind, _, of, _ = MESSAGE_HEAD.unpack_from(got)
                if of == number:
                    # (an answer to an earlier question, which was not read to its end, is ignored)
                    is_more = bool(flags)
                    if kind != BY_FAMILY:
                        # The end of the answers, or a fault.
                        return
                    yield got[16:length]
                got = got[max(16, (length + 3) & ~3) :]

    def close(self) -> None:
        if self.socket:
            self.socket.close()
        self.socket = None


def parts_of(answer: memoryview, at: int) -> Iterator[tuple[int, memoryview]]:
    """The parts of an answer after its head."""
    while at + 4 <= len(answer):
        size, kind = MESSAGE_PART.unpack_from(answer, at)
        yield kind, answer[at + 4 : at + size]
        at += max(4, (size + 3) & ~3)


def of_unix(asker: SocketAsker, inode: int) -> AcceptQueue | None:
    """Of a Unix socket nothing is dropped: who connects to a full one is told so."""
    body = struct.pack(ASKED_UNIX, socket.AF_UNIX, 0, 0, 0xFFFFFFFF, inode, SHOW_LENGTHS, 0xFFFFFFFF, 0xFFFFFFFF)
    found = None
    for answer in asker.answers(body, 0):
        for kind, text in parts_of(answer, struct.calcsize(ANSWERED_UNIX)):
            if kind == LENGTHS:
                waiting, most = struct.unpack("=II", text[:8])
                found = {"waiting": waiting, "most": most, "dropped": 0}
    return found


def of_tcp(asker: SocketAsker, family: int, wanted: set[int]) -> dict[int, AcceptQueue]:
    """The wanted ones of all sockets of a family that listen, by their numbers."""
    found: dict[int, AcceptQueue] = {}
    body = struct.pack(ASKED_TCP, family, socket.IPPROTO_TCP, 1 << (MEMORY - 1), 0, LISTENS)
    for answer in asker.answers(body, ALL):
        *_, waiting, most, _, inode = ANSWERED_TCP.unpack_from(answer)
        if inode in wanted:
            found[inode] = {"waiting": waiting, "most": most, "dropped": dropped_of(answer)}
    return found


def dropped_of(answer: memoryview) -> int | None:
    memory = next((text for kind, text in parts_of(answer, ANSWERED_TCP.size) if kind == MEMORY), b"")
    return struct.unpack(MEMINFO, memory)[DROPPED] if len(memory) == struct.calcsize(MEMINFO) else None


class Queues:
    """The queues of a service, for one who asks again and again."""

    def __init__(self) -> None:
        self.asker = SocketAsker()

    def of(self, held: dict[str, int]) -> list[AcceptQueue]:
        """The queue of each address of which the system tells it, by the numbers of their sockets."""
        found: list[AcceptQueue] = []
        try:
            tcp: dict[int, AcceptQueue] = {}
            for family in {family_of(address) for address in held} - {socket.AF_UNIX}:
                tcp |= of_tcp(self.asker, family, set(held.values()))
            for address, inode in sorted(held.items()):
                if queue := of_unix(self.asker, inode) if family_of(address) == socket.AF_UNIX else tcp.get(inode):
                    found.append({"address": address, **queue})
        except (OSError, struct.error):
            # The system has no answer. The next question is asked anew.
            with contextlib.suppress(OSError):
                self.asker.close()
        return found

    def end(self) -> None:
        self.asker.close()
