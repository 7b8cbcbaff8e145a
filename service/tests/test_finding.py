"""What an operator means: the word, the folder, and the address of a page."""
import os
import pathlib
import tempfile
import unittest

from prefork_service.finding import folder_of, nearest, word_of
from prefork_service.sites import fault_of_site, is_site


class WordTest(unittest.TestCase):
    def test_words_by_other_names(self) -> None:
        for text, wanted in (
            ("hup", "HUP"), ("HUP", "HUP"), ("reload", "HUP"), ("Reload", "HUP"), ("upgrade", "USR2"), ("stop", "QUIT"),
            ("log-rotate", "USR1"), ("usr2  attended", "USR2 attended"), ("upgrade attended", "USR2 attended"), ("HUP HUP", "HUP HUP"),
            ("restart", "restart"), ("", ""),
        ):
            self.assertEqual(word_of(text), wanted, text)

    def test_the_nearest_word(self) -> None:
        for text, wanted in (
            ("HUPP", "HUP"), ("USR2 attendd", "USR2 attended"), ("relaod", "reload"), ("statsu", "status"), ("xyzzy", None),
            ("certfy", "certify"),
        ):
            self.assertEqual(nearest(text), wanted, text)


class FolderTest(unittest.TestCase):
    def setUp(self) -> None:
        room = tempfile.TemporaryDirectory()
        self.addCleanup(room.cleanup)
        self.units = pathlib.Path(room.name) / "units"
        self.addCleanup(os.chdir, os.getcwd())
        os.chdir(room.name)

    def run_in(self, *names: str) -> None:
        for name in names:
            (self.units / name).mkdir(parents=True)
            (self.units / name / "ctl.sock").touch()

    def test_the_folder_that_is_named(self) -> None:
        for given, wanted in (("other", "other"), ("prefork@site", f"{self.units}/site"), ("prefork@site.service", f"{self.units}/site")):
            self.assertEqual(folder_of(given, self.units), wanted)

    def test_the_folder_of_the_only_unit(self) -> None:
        self.assertEqual(folder_of(None, self.units), "run")
        self.run_in("site")
        self.assertEqual(folder_of(None, self.units), f"{self.units}/site")
        self.run_in("other")
        with self.assertRaises(LookupError) as found:
            folder_of(None, self.units)
        self.assertIn(f"--folder {self.units}/other or --folder {self.units}/site", str(found.exception))
        pathlib.Path("run").mkdir()
        pathlib.Path("run/ctl.sock").touch()
        self.assertEqual(folder_of(None, self.units), "run")


class SiteTest(unittest.TestCase):
    def test_an_address_needs_a_host_and_others_are_wanted(self) -> None:
        for text, is_public, wanted in (
            ("8099", False, "name a host too: 127.0.0.1:8099"), (":8099", True, "name a host too"),
            ("127.0.0.1:x", False, "invalid port"), ("127.0.0.1:65536", False, "invalid port"), ("0.0.0.0:8099", False, "add --public"),
            ("10.0.0.1:8099", False, "add --public"), ("example.org:80", False, "add --public"),
        ):
            self.assertIn(wanted, fault_of_site("--page", text, is_public) or "", text)
        for text, is_public in (("127.0.0.1:8099", False), ("127.1.2.3:1", False), ("localhost:80", False), ("/run/x", False), ("0.0.0.0:8099", True)):
            self.assertIsNone(fault_of_site("--page", text, is_public), text)

    def test_metrics_in_a_file_and_at_an_address(self) -> None:
        for text, wanted in (("8099", True), ("127.0.0.1:1", True), ("m.prom", False), ("/a:b", False), ("a/b:1", False)):
            self.assertEqual(is_site(text), wanted, text)


if __name__ == "__main__":
    unittest.main()
