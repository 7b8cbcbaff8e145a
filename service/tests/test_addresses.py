"""Addresses of both families, and paths."""
import contextlib
import errno
import pathlib
import socket
import tempfile
import unittest
from collections.abc import Iterator

from kit import has_ipv6, until
from prefork_service.addresses import endpoint_of, family_of, host_and_port, text_of
from prefork_service.queues import Queues
from prefork_service.sites import fault_of_site
from prefork_service.opening import is_taken, listening
from prefork_service.sockets import inode_of, is_tcp, seal
from prefork_service.web import opened


@contextlib.contextmanager
def both_families() -> Iterator[tuple[socket.socket, socket.socket]]:
    """Two sockets that listen on one port, one for each family."""
    while True:
        four = listening("127.0.0.1:0")
        try:
            six = listening(f"[::1]:{four.getsockname()[1]}")
            break
        except OSError as fault:
            # (another process has this port)
            four.close()
            if fault.errno != errno.EADDRINUSE:
                raise
    with four, six:
        yield four, six


class AddressTest(unittest.TestCase):
    def test_an_address_has_a_family_and_an_endpoint(self) -> None:
        self.assertEqual((family_of("[::1]:80"), endpoint_of("[::1]:80")), (socket.AF_INET6, ("::1", 80)))
        self.assertEqual((family_of("1.2.3.4:80"), endpoint_of("1.2.3.4:80")), (socket.AF_INET, ("1.2.3.4", 80)))
        self.assertEqual((family_of("/run/a"), endpoint_of("/run/a")), (socket.AF_UNIX, "/run/a"))
        self.assertEqual(host_and_port("[2001:db8::1]:443"), ("2001:db8::1", "443"))

    def test_an_endpoint_has_a_text(self) -> None:
        self.assertEqual(text_of(("::1", 80, 0, 0)), "[::1]:80")
        self.assertEqual(text_of(("1.2.3.4", 80)), "1.2.3.4:80")
        self.assertEqual(text_of("/run/a"), "/run/a")

    def test_a_page_may_be_at_an_ipv6_address_of_this_machine(self) -> None:
        self.assertIsNone(fault_of_site("--page", "[::1]:8099", False))
        self.assertIn("--public", fault_of_site("--page", "[::]:8099", False) or "")
        self.assertIn("invalid port", fault_of_site("--page", "[::1]:x", True) or "")


@unittest.skipUnless(has_ipv6(), "this machine has no IPv6")
class ListeningTest(unittest.TestCase):
    def test_both_families_have_one_port(self) -> None:
        queues = Queues()
        self.addCleanup(queues.end)
        with both_families() as (four, six):
            for one in (four, six):
                self.assertTrue(is_tcp(one))
                with socket.create_connection(one.getsockname()[:2], 10) as client:
                    self.assertTrue(until(lambda: queues.of({text_of(one.getsockname()): inode_of(one)})[0]["waiting"] == 1))
                    one.accept()[0].close()
                    client.recv(1)

    def test_an_ipv6_socket_takes_no_dotted_connection(self) -> None:
        with listening("[::]:0") as six:
            with self.assertRaises(ConnectionRefusedError):
                socket.create_connection(("127.0.0.1", six.getsockname()[1]), 10)

    def test_a_sealed_ipv6_socket_refuses(self) -> None:
        with listening("[::1]:0") as six:
            seal(six)
            with self.assertRaises(ConnectionRefusedError):
                socket.create_connection(six.getsockname()[:2], 10)
            with listening(text_of(six.getsockname()), is_again=True) as again:
                socket.create_connection(again.getsockname()[:2], 10).close()

    def test_an_ipv6_address_is_taken_while_somebody_listens_there(self) -> None:
        with listening("[::1]:0") as six:
            address = text_of(six.getsockname())
            self.assertTrue(is_taken(address))
        self.assertFalse(is_taken(address))

    def test_a_page_listens_at_an_ipv6_address(self) -> None:
        with opened("[::1]:0") as page:
            socket.create_connection(page.getsockname()[:2], 10).close()


class PathTest(unittest.TestCase):
    def test_a_path_is_no_tcp(self) -> None:
        with tempfile.TemporaryDirectory(prefix="addresses-") as room:
            with listening(str(pathlib.Path(room) / "a.sock")) as one:
                self.assertFalse(is_tcp(one))
