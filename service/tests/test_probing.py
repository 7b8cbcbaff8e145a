"""Requests to an application in its own process."""
import contextlib
import io
import unittest
from unittest import mock

from prefork_service import probing
from prefork_service.holding import Unfit


class Application:
    """An application that answers with these statuses, one after another; an exception is raised."""

    def __init__(self, *statuses: object):
        self.statuses, self.asked, self.is_closed = list(statuses), [], False

    def __call__(self, environ, start):
        self.asked.append(environ)
        status = self.statuses.pop(0)
        if isinstance(status, Exception):
            raise status
        if status:
            start(status, [])
        return self

    def __iter__(self):
        return iter([b"x"])

    def close(self) -> None:
        self.is_closed = True


class ProbingTest(unittest.TestCase):
    def setUp(self) -> None:
        for change in (mock.patch.object(probing, "PROBE_PAUSE_SECONDS", 0), contextlib.redirect_stderr(io.StringIO())):
            self.enterContext(change)

    def test_a_probe_is_answered(self) -> None:
        for statuses in (["200 OK"], ["404 Not Found"], ["500 Wrong", "301 Moved"], [ValueError("x"), "", "204 Empty"]):
            application = Application(*statuses)
            probing.probe(application, "/a?b=c")
            self.assertEqual((application.statuses, application.is_closed), ([], True))
            self.assertEqual((application.asked[0]["PATH_INFO"], application.asked[0]["QUERY_STRING"]), ("/a", "b=c"))

    def test_three_answers_of_500_or_more_are_the_end(self) -> None:
        for statuses, why in (
            (["500 A", "502 B", "503 C", "200 OK"], "503 C"), ([ValueError("x")] * 4, "ValueError: x"), ([""] * 4, "nothing"),
        ):
            application = Application(*statuses)
            with self.assertRaises(Unfit) as found:
                probing.probe(application, "/")
            self.assertEqual((str(found.exception), len(application.asked)), (f"/ is answered 3 times: {why}", 3))

    def test_a_page_of_warm_has_to_be_there(self) -> None:
        probing.warm(Application("302 Found"), "/")
        for status in ("404 Not Found", "500 Wrong", ""):
            self.assertRaises(Unfit, probing.warm, Application(status), "/")

    def test_a_request_by_tls(self) -> None:
        for is_secure, wanted in ((False, ("http", None)), (True, ("https", "https"))):
            application = Application("200 OK")
            probing.probe(application, "/", is_secure)
            environ = application.asked[0]
            self.assertEqual((environ["wsgi.url_scheme"], environ.get("HTTP_X_FORWARDED_PROTO")), wanted)


if __name__ == "__main__":
    unittest.main()
