"""What a reload needs, and what the limits allow."""
import unittest
from unittest import mock

from prefork_service import needs
from prefork_service.named import addresses_of, groups_of, timeout_of, workers_in
from prefork_service.needs import needs_of, shortages

SITE = b'listeners = ["127.0.0.1:1", "127.0.0.1:2", "127.0.0.1:3", "127.0.0.1:4"]\nworkers = 200\n'


class NeedsTest(unittest.TestCase):
    def test_workers_and_listeners_of_each_group(self) -> None:
        self.assertEqual(groups_of(SITE), [(200, 4)])
        text = b'[[groups]]\nlisteners = ["a:1"]\nworkers = 3\n[[groups]]\nlisteners = ["a:2", "a:3"]\nworkers = 1\n'
        self.assertEqual(groups_of(text), [(3, 1), (1, 2)])
        self.assertEqual(addresses_of(text), ["a:1", "a:2", "a:3"])

    def test_the_workers_of_a_configuration(self) -> None:
        for text, wanted in (
            (b"workers = 3\n", 3), (b"", 1), (b"workers = 0\n", 0), (b'groups = [{ listeners = ["/a"] }, { workers = 4 }]\n', 5),
            (b"workers = \n", 0), (b'groups = "x"\n', 0), (b"\xff", 0),
        ):
            self.assertEqual(workers_in(text), wanted, text)

    def test_the_timeout_of_a_configuration(self) -> None:
        for text, wanted in ((b"timeout = 7", 7), (b"workers = 1", 60), (b"timeout =", 60), (b'timeout = "7"', 60), (b"\xff", 60)):
            self.assertEqual(timeout_of(text), wanted, text)

    def test_a_configuration_that_the_master_is_to_refuse_needs_nothing(self) -> None:
        for text in (b"", b"\xff", b"workers =", b"workers = 1", b"groups = 1", b'listeners = 1\nworkers = "x"'):
            self.assertEqual(groups_of(text), [])
            if b"listeners" not in text:
                self.assertEqual(addresses_of(text), [])

    def test_twice_as_many_workers_run_in_a_reload(self) -> None:
        found = needs_of(SITE, 3)
        self.assertEqual(found.keeper, needs.KEEPER_REST + 2 * 200 * 4 + 4)
        self.assertEqual(needs_of(SITE, 3, is_adapted=True).keeper, needs.KEEPER_REST + 2 * 200 + 4)
        self.assertEqual(found.master, needs.MASTER_REST + 2 * 200 * 2)
        self.assertEqual(found.serve, needs.SERVE_REST + 4)
        forked = needs_of(SITE, 3, is_forked=True)
        self.assertEqual((forked.preloader, found.preloader), (needs.PRELOADER_REST + 200, 0))
        self.assertEqual((forked.serve - found.serve, forked.processes - found.processes), (needs.PRELOADED, needs.PRELOADERS))
        self.assertEqual(needs_of(SITE, 3, 2).serve, needs.SERVE_REST + 4 + 2 * needs.SITE)
        self.assertEqual(found.processes, needs.OWN_PROCESSES + 2 * 200 * 3)

    def limited(self, soft: int, hard: int, processes: int | None = None) -> list[str]:
        with mock.patch.object(needs.resource, "getrlimit", return_value=(soft, hard)):
            with mock.patch.object(needs, "most_processes", return_value=processes):
                return shortages(needs_of(SITE, 1))

    def test_what_is_short_is_named(self) -> None:
        self.assertEqual(self.limited(1024, 4096), [])
        self.assertIn("1684 descriptors in its keeper, and 1024 are allowed", self.limited(1024, 1024)[0])
        self.assertIn("824 descriptors in its master, and 512 are allowed", self.limited(512, 4096)[0])
        self.assertIn("408 processes, and 400 are allowed", self.limited(1024, 4096, 400)[0])

    def test_no_limit_allows_all(self) -> None:
        unlimited = needs.resource.RLIM_INFINITY
        self.assertEqual(self.limited(unlimited, unlimited), [])


if __name__ == "__main__":
    unittest.main()
