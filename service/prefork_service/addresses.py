"""Where an address leads: `127.0.0.1:8080`, `[::1]:8080`, or the path of a Unix socket."""
import socket
from typing import Any

Endpoint = str | tuple[str, int]


def host_and_port(address: str) -> tuple[str, str]:
    """The host of an address, without the brackets of an IPv6 one, and what follows the last colon."""
    host, _, port = address.rpartition(":")
    return (host[1:-1] if host.startswith("[") and host.endswith("]") else host), port


def family_of(address: str) -> socket.AddressFamily:
    if address.startswith("/"):
        return socket.AF_UNIX
    return socket.AF_INET6 if ":" in host_and_port(address)[0] else socket.AF_INET


def endpoint_of(address: str) -> Endpoint:
    """What `bind` and `connect` take for an address. Raises ValueError where the port is no number."""
    if address.startswith("/"):
        return address
    host, port = host_and_port(address)
    return host, int(port)


def socket_for(address: str) -> socket.socket:
    """A socket of the family of an address. One for IPv6 serves IPv6 alone, so that both families can have one port."""
    one = socket.socket(family_of(address), socket.SOCK_STREAM)
    if one.family == socket.AF_INET6:
        one.setsockopt(socket.IPPROTO_IPV6, socket.IPV6_V6ONLY, 1)
    return one


def text_of(place: Any) -> str:
    """The address of what `getsockname` gives."""
    if isinstance(place, str):
        return place
    host, port = place[:2]
    return f"[{host}]:{port}" if ":" in host else f"{host}:{port}"
