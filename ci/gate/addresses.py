"""Free addresses on loopback, and what is served there."""
import random
import socket
import threading

# Below the ports that the system gives to outgoing connections.
PORTS = range(15000, 32000)
SECONDS = 60.0
PICKING = threading.Lock()
# The ports that this process has given, each with what keeps other scripts off it as long as this process lives.
PICKED: dict[int, socket.socket] = {}


def free_address() -> str:
    """An address that nobody listens on, and that neither this process nor another script has given."""
    with PICKING:
        while True:
            port = random.choice(PORTS)
            claim = claim_of(port) if port not in PICKED else None
            if claim and is_free(port):
                PICKED[port] = claim
                return f"127.0.0.1:{port}"


def claim_of(port: int) -> socket.socket | None:
    """A name in the system's list of names without files, which one process has at a time; none if another has it."""
    claim = socket.socket(socket.AF_UNIX)
    try:
        claim.bind(f"\0prefork-gate-port-{port}")
    except OSError:
        claim.close()
        return None
    return claim


def is_free(port: int) -> bool:
    with socket.socket() as probe:
        try:
            probe.bind(("127.0.0.1", port))
        except OSError:
            return False
    return True


def place_of(address: str) -> tuple[str, int]:
    """The host and the port of an address, without the brackets of an IPv6 one."""
    host, _, port = address.rpartition(":")
    return host.strip("[]"), int(port)


def ipv6_beside(address: str) -> str | None:
    """The same port of the IPv6 loopback, if this machine has one and the port is free there."""
    found = f"[::1]:{place_of(address)[1]}"
    try:
        with socket.socket(socket.AF_INET6) as probe:
            probe.bind(place_of(found))
    except OSError:
        return None
    return found


def answer_of(address: str, path: str = "/", seconds: float = SECONDS) -> str:
    """The text of an answer, on a connection of its own."""
    with socket.create_connection(place_of(address), seconds) as connection:
        # (the page of a service answers for its own address alone)
        host = "gate" if address.startswith("/") else address
        connection.sendall(f"GET {path} HTTP/1.1\r\nHost: {host}\r\nConnection: close\r\n\r\n".encode())
        with connection.makefile("rb") as got:
            return got.read().decode().partition("\r\n\r\n")[2]


def is_answered(address: str, seconds: float = 5.0) -> bool:
    """Whether there is an answer. Who asks only once gives it more time."""
    try:
        return bool(answer_of(address, seconds=seconds))
    except OSError:
        return False


def is_refused(address: str) -> bool:
    try:
        answer_of(address, seconds=5)
    except ConnectionRefusedError:
        return True
    except OSError:
        pass
    return False
