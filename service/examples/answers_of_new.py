#!/usr/bin/env python3
"""answers_of_new.py [--times N] [--within SECONDS] [--status STATUS] PATH

Answers the question of an upgrade that asks: it asks the new workers alone for PATH, over HTTP, and ends with 0 once each of
them has answered N times (10) with STATUS (200). It ends with 1 at the first other answer of a new worker, and if it is not
done within SECONDS (30).

    prefork-ctl --ask "examples/answers_of_new.py /health" --after 2 "USR2 attended"

Old and new workers accept at the same sockets, and no client chooses. So a request is sent in two pieces: after the first one
the system says which process has accepted the connection (/proc/net/tcp and /proc/PID/fd), and the answer counts only if that
is a new worker, or a process that it has started. This needs the rights of the service's user, an address with a port, and a
program that accepts before it has heard a whole request, as prefork-wsgi does. Nothing is asked of the application.
"""
import argparse
import collections
import os
import pathlib
import random
import socket
import sys
import time

# How long a connection may wait to be accepted, and how often it is looked.
ACCEPT_SECONDS, LOOK_SECONDS = 5.0, 0.005
ENDS = b"\r\n\r\n"


def of_worker(worker: int) -> list[int]:
    """A worker's process, and those that it has started, and so on."""
    found = [worker]
    for one in found:
        for task in pathlib.Path(f"/proc/{one}/task").glob("*/children"):
            try:
                found += [int(child) for child in task.read_text().split() if int(child) not in found]
            except OSError:
                continue
    return found


def accepted(local: int, remote: int) -> str | None:
    """The number that the system gives to the other end of a connection, once a process has accepted it."""
    for table in ("/proc/net/tcp", "/proc/net/tcp6"):
        try:
            lines = pathlib.Path(table).read_text().splitlines()[1:]
        except OSError:
            continue
        for words in map(str.split, lines):
            ports = [int(words[at].rpartition(":")[2], 16) for at in (1, 2)]
            if ports == [remote, local] and words[9] != "0":
                return words[9]
    return None


def owner_of(inode: str, workers: list[int]) -> int | None:
    """The worker that has a socket, itself or by a process that it has started."""
    for worker in workers:
        for process in of_worker(worker):
            try:
                held = [os.readlink(f"/proc/{process}/fd/{name}") for name in os.listdir(f"/proc/{process}/fd")]
            except OSError:
                continue
            if f"socket:[{inode}]" in held:
                return worker
    return None


def ask_once(address: str, path: str, workers: list[int]) -> tuple[int | None, int]:
    """Which of the workers has answered, if one of them has, and with which status."""
    host, _, port = address.rpartition(":")
    with socket.create_connection((host.strip("[]"), int(port)), ACCEPT_SECONDS) as connection:
        connection.sendall(f"GET {path} HTTP/1.1\r\n".encode())
        until, inode = time.monotonic() + ACCEPT_SECONDS, None
        while not (inode := accepted(connection.getsockname()[1], int(port))) and time.monotonic() < until:
            time.sleep(LOOK_SECONDS)
        # (a process that has accepted it may hand it on)
        worker = owner_of(inode, workers) if inode else None
        # The request is sent to its end in any case: an old worker is to see nothing odd.
        connection.sendall(f"Host: {address}\r\nConnection: close\r\n\r\n".encode())
        got = b""
        while ENDS not in got and (piece := connection.recv(65536)):
            got += piece
    words = got.split(None, 2)
    return worker, int(words[1]) if len(words) > 1 and words[1].isdigit() else 0


def arguments() -> argparse.Namespace:
    parser = argparse.ArgumentParser(prog="answers_of_new.py", description="Asks new workers alone for a path.")
    parser.add_argument("--times", type=int, default=10, metavar="N", help="how often each new worker has to answer (10)")
    parser.add_argument("--within", type=float, default=30.0, metavar="SECONDS", help="how long that may take (30)")
    parser.add_argument("--status", type=int, default=200, help="the status that is wanted (200)")
    parser.add_argument("path", metavar="PATH")
    return parser.parse_args()


def main() -> int:
    given = arguments()
    workers = [int(number) for number in os.environ["PREFORK_NEW_WORKERS"].split()]
    addresses = [address for address in os.environ["PREFORK_NEW_ADDRESSES"].split() if not address.startswith("/")]
    if not workers or not addresses:
        print("there is no new worker, or no address with a port")
        return 1
    until, counts, others = time.monotonic() + given.within, collections.Counter[int](), 0
    while time.monotonic() < until:
        try:
            worker, status = ask_once(random.choice(addresses), given.path, workers)
        except OSError as fault:
            print(f"no answer: {fault}")
            return 1
        if worker is None:
            others += 1
            continue
        if status != given.status:
            print(f"the new worker {worker} has answered {status}, after {counts.total()} good answers of new workers")
            return 1
        counts[worker] += 1
        if all(counts[one] >= given.times for one in workers):
            print(f"each of {len(workers)} new workers has answered at least {given.times} times; {others} answers were of others")
            return 0
    told = ", ".join(f"{counts[one]} by {one}" for one in workers)
    print(f"within {given.within:g} s new workers have answered too seldom: {told}; {others} answers were of others")
    return 1


if __name__ == "__main__":
    sys.exit(main())
