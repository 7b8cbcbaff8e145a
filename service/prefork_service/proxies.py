"""What a WSGI application is told of a request: by which address it came, and, from a proxy that is trusted, its client."""
import ipaddress
from collections.abc import Callable, Iterable
from typing import Any

# What a proxy says of its client, as the application sees it.
OF_PROXIES = (
    "HTTP_FORWARDED", "HTTP_X_FORWARDED_FOR", "HTTP_X_FORWARDED_HOST", "HTTP_X_FORWARDED_PROTO", "HTTP_X_FORWARDED_PORT",
    "HTTP_X_FORWARDED_BY",
)
# In place of an address: what comes at a Unix socket.
UNIX_SCHEME = "unix"
PORT_OF_SCHEME = {"http": "80", "https": "443"}
Network = ipaddress.IPv4Network | ipaddress.IPv6Network


def proxy_of(text: str) -> Network | str:
    """A proxy, by its address or its network, or `unix`. Raises ValueError."""
    return UNIX_SCHEME if text == UNIX_SCHEME else ipaddress.ip_network(text)


class Proxies:
    """The proxies that are trusted."""

    def __init__(self, trusted: Iterable[Network | str]):
        self.networks = [one for one in trusted if not isinstance(one, str)]
        self.has_unix = UNIX_SCHEME in trusted

    def is_trusted(self, address: str) -> bool:
        """Whether an address is that of a trusted proxy."""
        try:
            one = ipaddress.ip_address(address)
        except ValueError:
            return False
        return any(one in network for network in self.networks)

    def client_of(self, hops: str) -> str | None:
        """The client, by X-Forwarded-For: the last address that is not that of a trusted proxy, or the first one."""
        found = [part for hop in hops.split(",") if (part := without_port(hop.strip()))]
        return next((hop for hop in reversed(found) if not self.is_trusted(hop)), found[0] if found else None)

    def told(self, environ: dict[str, Any], is_unix: bool) -> None:
        """Corrects what an application is told of a request."""
        environ["wsgi.multiprocess"] = True
        environ["SERVER_NAME"] = name_of(environ["SERVER_NAME"])
        if is_unix:
            environ["SERVER_NAME"], environ["SERVER_PORT"] = "localhost", PORT_OF_SCHEME["http"]
        if not (self.has_unix if is_unix else self.is_trusted(environ["REMOTE_ADDR"])):
            for name in OF_PROXIES:
                environ.pop(name, None)
            return
        if client := self.client_of(environ.get("HTTP_X_FORWARDED_FOR", "")):
            environ["REMOTE_ADDR"] = environ["REMOTE_HOST"] = client
            environ.pop("REMOTE_PORT", None)
        scheme = environ.get("HTTP_X_FORWARDED_PROTO", "").rpartition(",")[2].strip().lower()
        if scheme in PORT_OF_SCHEME:
            environ["wsgi.url_scheme"] = scheme
        host = environ.get("HTTP_HOST", "")
        if host:
            environ["SERVER_NAME"] = name_of(without_port(host))
            port = host.rpartition(":")[2] if not host.endswith("]") and ":" in host else ""
            environ["SERVER_PORT"] = port if port.isdigit() else PORT_OF_SCHEME[environ["wsgi.url_scheme"]]


def without_port(text: str) -> str:
    """A host or an address without its port, and one of IPv6 without its brackets."""
    text = text.strip('"')
    if text.startswith("["):
        return text[1:].partition("]")[0]
    return text.partition(":")[0] if text.count(":") == 1 else text


def name_of(host: str) -> str:
    """The name of a server: an IPv6 address has brackets there (RFC 3875), as that of a client has none."""
    return f"[{host}]" if ":" in host and not host.startswith("[") else host


def corrected(application: Callable[..., Any], trusted: Iterable[Network | str]) -> Callable[..., Any]:
    """An application that is told rightly of its requests."""
    proxies = Proxies(list(trusted))

    def answer(environ: dict[str, Any], start_response: Callable[..., Any]) -> Any:
        proxies.told(environ, environ["SERVER_PORT"].startswith("/"))
        return application(environ, start_response)

    return answer
