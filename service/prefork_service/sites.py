"""The addresses of pages and of metrics, as options name them."""
import ipaddress

from .addresses import host_and_port

LOCAL = "127.0.0.1"


def fault_of_site(option: str, text: str, is_public: bool) -> str | None:
    """What is wrong with HOST:PORT or the path of a Unix socket, if something is. Who reaches the address can read the page,
    so one that is not of this machine alone has to be wanted."""
    if text.startswith("/"):
        return None
    host, port = host_and_port(text)
    if not host:
        return f"{option} {text}: name a host too: {LOCAL}:{port or 8099} is for this machine alone"
    if not port.isdigit() or not 1 <= int(port) <= 65535:
        return f"{option} {text}: invalid port: 1 to 65535"
    if not is_public and not is_loopback(host):
        return f"{option} {text}: others than this machine can reach it, and there is no password: add --public, or use {LOCAL}:{port}"
    return None


def is_loopback(host: str) -> bool:
    try:
        return ipaddress.ip_address(host).is_loopback
    except ValueError:
        return host == "localhost"


def is_site(text: str) -> bool:
    """Whether what --metrics names is an address, and not a file."""
    return ":" in text and "/" not in text or text.isdigit()
