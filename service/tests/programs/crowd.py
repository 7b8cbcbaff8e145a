"""crowd.py COUNT: this number of connections wait at a port, and at a path, and nobody accepts them. Prints what the queues are."""
import pathlib
import resource
import socket
import sys
import tempfile
import time

sys.path.insert(0, str(pathlib.Path(__file__).resolve().parent.parent.parent))

from prefork_service.addresses import text_of
from prefork_service.queues import Queues
from prefork_service.sockets import inode_of

SECONDS = 60.0


def waiting(kind: str, listener: socket.socket, count: int) -> str:
    """The queue of a listener at which this number has connected."""
    listener.listen(count)
    clients = []
    for _ in range(count):
        clients.append(socket.socket(listener.family))
        clients[-1].connect(listener.getsockname())
    deadline, held, queues = time.monotonic() + SECONDS, {text_of(listener.getsockname()): inode_of(listener)}, Queues()
    while (found := queues.of(held)[0])["waiting"] < count and time.monotonic() < deadline:
        time.sleep(0.02)
    for client in clients:
        client.close()
    return f"{kind} {found['waiting']} of {found['most']}, {found['dropped']} dropped"


def main() -> int:
    count = int(sys.argv[1])
    _, most = resource.getrlimit(resource.RLIMIT_NOFILE)
    resource.setrlimit(resource.RLIMIT_NOFILE, (most, most))
    with tempfile.TemporaryDirectory() as room, socket.socket() as tcp, socket.socket(socket.AF_UNIX) as unix:
        tcp.bind(("127.0.0.1", 0))
        print(waiting("tcp", tcp, count))
        unix.bind(f"{room}/s")
        print(waiting("unix", unix, count))
    return 0


if __name__ == "__main__":
    sys.exit(main())
