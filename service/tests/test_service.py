"""What is said of a block to people, and to programs."""
import json
import unittest

from prefork_service.ctl import as_json
from prefork_service.outcomes import is_broken

START = "word HUP\n1 m1 fork 1.2 0 : forked\n"
BACK = "3 m1 kill 1.2 0 : ok\nrolled-back cause 2 pid no-file\n"


class BlockTest(unittest.TestCase):
    def test_a_version_that_did_not_start(self) -> None:
        for line in (
            "2 m1 await-ready 1.2 0 : gone", "2 m1 await-ready 1.2 0 : late", "2 m1 fork 1.2 1 : again",
            "2 m2 adopt : master-gone", "2 m1 spawn-master 2 : no-memory",
        ):
            self.assertTrue(is_broken("HUP", f"{START}{line}\n{BACK}"), line)

    def test_blocks_without_one(self) -> None:
        ready = "2 m1 await-ready 1.2 0 : ready\n"
        self.assertFalse(is_broken("HUP", f"{START}{ready}{BACK}"))
        self.assertFalse(is_broken("HUP", f"{START}2 m1 await-ready 1.2 0 : gone\ndone cause 2 pid no-file\n"))
        self.assertFalse(is_broken("TTIN", f"{START}2 m1 await-ready 1.2 0 : gone\n{BACK}"))

    def test_a_block_as_json(self) -> None:
        found = json.loads(as_json("word HUP\ndone cause none\n", "prefork-ctl: look\n", 0))
        self.assertEqual(found, {"status": 0, "report": "done cause none", "lines": ["word HUP"], "notes": ["look"]})


if __name__ == "__main__":
    unittest.main()
