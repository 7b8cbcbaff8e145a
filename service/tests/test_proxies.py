"""What a WSGI application is told of requests that come from proxies."""
import unittest
from typing import Any

from prefork_service.proxies import OF_PROXIES, corrected, proxy_of

TLS = {"HTTP_X_FORWARDED_PROTO": "https", "HTTP_X_FORWARDED_FOR": "192.0.2.7", "HTTP_HOST": "site.example"}


def told(trusted: list[str], remote: str = "127.0.0.1", port: str = "8080", **headers: str) -> dict[str, Any]:
    """What the application is told of a request."""
    environ = {
        "REMOTE_ADDR": remote, "REMOTE_HOST": remote, "REMOTE_PORT": "5", "SERVER_NAME": "127.0.0.1", "SERVER_PORT": port,
        "wsgi.url_scheme": "http", "wsgi.multiprocess": False, **headers,
    }
    found: list[dict] = []
    corrected(lambda environ, start: found.append(environ), [proxy_of(text) for text in trusted])(environ, print)
    return found[0]


class ProxiesTest(unittest.TestCase):
    def test_nobody_is_trusted_unless_named(self) -> None:
        for trusted, remote in (([], "127.0.0.1"), (["10.0.0.0/8"], "11.0.0.1"), (["unix"], "127.0.0.1"), (["::1"], "127.0.0.1")):
            headers = {name: "x" for name in OF_PROXIES} | TLS
            found = told(trusted, remote, **headers)
            self.assertEqual((found["wsgi.url_scheme"], found["REMOTE_ADDR"], found["SERVER_PORT"]), ("http", remote, "8080"))
            self.assertEqual([name for name in OF_PROXIES if name in found], [])
            self.assertIs(found["wsgi.multiprocess"], True)

    def test_a_proxy_that_ends_tls(self) -> None:
        for trusted, remote, port in ((["127.0.0.1"], "127.0.0.1", "8080"), (["10.0.0.0/8"], "10.1.2.3", "80"), (["unix"], "localhost", "/x")):
            found = told(trusted, remote, port, **TLS)
            self.assertEqual((found["wsgi.url_scheme"], found["REMOTE_ADDR"], found["REMOTE_HOST"]), ("https", "192.0.2.7", "192.0.2.7"))
            self.assertEqual((found["SERVER_NAME"], found["SERVER_PORT"]), ("site.example", "443"))
            self.assertEqual((found["HTTP_X_FORWARDED_PROTO"], "REMOTE_PORT" in found), ("https", False))

    def test_the_client_is_the_last_one_that_no_trusted_proxy_is(self) -> None:
        trusted = ["127.0.0.1", "10.0.0.0/8"]
        for hops, wanted in (
            ("1.2.3.4, 192.0.2.7", "192.0.2.7"), ("1.2.3.4, 192.0.2.7, 10.0.0.9", "192.0.2.7"), ("10.0.0.8, 10.0.0.9", "10.0.0.8"),
            ("192.0.2.7:1234", "192.0.2.7"), ('"[2001:db8::1]:99"', "2001:db8::1"), ("2001:db8::1", "2001:db8::1"),
            ("unknown", "unknown"), (" , ", "127.0.0.1"), ("", "127.0.0.1"),
        ):
            self.assertEqual(told(trusted, HTTP_X_FORWARDED_FOR=hops)["REMOTE_ADDR"], wanted, hops)

    def test_the_host_and_the_port(self) -> None:
        for host, scheme, wanted in (
            ("a:81", "http", ("a", "81")), ("a", "http", ("a", "80")), ("[::1]", "https", ("[::1]", "443")),
            ("[::1]:9", "https", ("[::1]", "9")), ("a:x", "https", ("a", "443")), ("a", "gopher", ("a", "80")), ("", "https", ("127.0.0.1", "8080")),
        ):
            found = told(["127.0.0.1"], HTTP_HOST=host, HTTP_X_FORWARDED_PROTO=scheme)
            self.assertEqual((found["SERVER_NAME"], found["SERVER_PORT"]), wanted, host)

    def test_an_ipv6_server_has_brackets_and_a_client_has_none(self) -> None:
        found = told([], "::1", SERVER_NAME="::1")
        self.assertEqual((found["SERVER_NAME"], found["REMOTE_ADDR"]), ("[::1]", "::1"))

    def test_a_unix_socket_has_no_path_for_a_port(self) -> None:
        found = told([], "localhost", "/run/site.sock")
        self.assertEqual((found["SERVER_NAME"], found["SERVER_PORT"]), ("localhost", "80"))

    def test_what_is_no_proxy(self) -> None:
        for text in ("", "x", "1.2.3", "10.0.0.1/8", "unix:"):
            self.assertRaises(ValueError, proxy_of, text)


if __name__ == "__main__":
    unittest.main()
