"""Sockets that another process gives."""
import os
import socket
import unittest

from prefork_service.sockets import given_sockets


class SocketsTest(unittest.TestCase):
    def test_descriptors_are_sockets(self) -> None:
        one, other = socket.socketpair()
        with other:
            number = one.detach()
            [found] = given_sockets([number])
            with found:
                self.assertEqual(found.fileno(), number)
                found.send(b"+")
                self.assertEqual(other.recv(1), b"+")

    def test_if_one_is_none_all_are_closed(self) -> None:
        ends = socket.socketpair()
        waiting, other = socket.socketpair()
        self.addCleanup(other.close)
        numbers = [ends[0].detach(), *os.pipe(), waiting.detach(), ends[1].detach()]
        with self.assertRaises(OSError):
            given_sockets(numbers)
        for number in numbers:
            with self.assertRaises(OSError):
                os.fstat(number)
        # Who waits hears the end.
        self.assertEqual(other.recv(1), b"")


if __name__ == "__main__":
    unittest.main()
