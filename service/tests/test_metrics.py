"""What Prometheus reads."""
import pathlib
import re
import tempfile
import unittest
from unittest import mock

from prefork_service.metrics import METRICS, MetricsFile, metrics_of
from prefork_service.traffic import Counts

COUNTS = Counts(classes=[0, 8, 0, 1, 1], buckets=[4, *[0] * 9, 5, 1], microseconds=2500000, lost_lines=6).as_json()
WORKER = {"requests": {"count": 10, "busy": 3, "threads": 4}, "generation": "1.2", "number": 0, "process": 7, "seconds": 9, "last_beat_seconds": 1, "memory": 12000000, "processor_seconds": 1.5}
STATUS = {
    "service": {"process": 1, "seconds": 60, "folder": "/run/site"}, "addresses": ["127.0.0.1:8080"], "generation": "1.2",
    "workers": [WORKER, {**WORKER, "number": 1, "process": None, "seconds": None, "last_beat_seconds": None, "memory": None, "requests": None}],
    "masters": [3, 4], "master_restarts": 1, "keeper": {"process": 5, "restarts": 2},
    "last": {"word": "HUP", "report": "rolled-back cause 2 pid no-file"}, "doing": None, "question": 0, "waiting": 3,
    "counts": [{"word": "USR2 attended", "outcome": "done", "count": 4}], "file_has_changed": True, "records_waiting": 0,
    "limits_passed": {"hard_memory": 2, "request_timeout": 0}, "ticks": 59, "tick_outcomes": {"nothing": 50, "degraded": 8, "lost": 1}, "question_seconds": 0, "others": [],
    "state": "short", "wanted": 3, "running": 1, "failed_starts": 21, "line": "short: wanted 3, runs 1: worker 2 has failed",
    "queues": [{"address": "127.0.0.1:8080", "waiting": 5, "most": 1024, "dropped": 7}],
    "requests": {**COUNTS, "busy": 3, "threads": 4, "generations": {"1.2": {"2xx": 8, "5xx": 1}}},
    "failing": [{"worker": 2, "failed": 21, "reason": "it <ended>", "next_try_seconds": 9.0}],
}


class MetricsTest(unittest.TestCase):
    def test_each_value(self) -> None:
        lines = metrics_of(STATUS).splitlines()
        for line in (
            'prefork_workers{generation="1.2"} 2', "prefork_workers_ended 1",
            'prefork_worker_seconds{generation="1.2",number="0"} 9',
            'prefork_worker_last_beat_seconds{generation="1.2",number="0"} 1', "prefork_masters 2",
            "prefork_master_restarts_total 1", "prefork_keeper_up 1", "prefork_keeper_restarts_total 2",
            'prefork_words_total{word="USR2 attended",outcome="done"} 4', 'prefork_last_word_done{word="HUP"} 0',
            "prefork_busy 0", "prefork_words_waiting 3", "prefork_file_has_changed 1", "prefork_service_seconds 60",
            "prefork_addresses 1", 'prefork_ticks_total{outcome="nothing"} 50', 'prefork_ticks_total{outcome="degraded"} 8',
            'prefork_ticks_total{outcome="done"} 0', 'prefork_ticks_total{outcome="lost"} 1', 'prefork_state{state="short"} 1',
            'prefork_state{state="serves"} 0', "prefork_workers_wanted 3", "prefork_workers_running 1",
            "prefork_failed_starts_total 21", 'prefork_queue_length{address="127.0.0.1:8080"} 5',
            'prefork_queue_limit{address="127.0.0.1:8080"} 1024', 'prefork_queue_dropped_total{address="127.0.0.1:8080"} 7',
            'prefork_worker_memory_bytes{generation="1.2",number="0"} 12000000',
            'prefork_worker_processor_seconds_total{generation="1.2",number="0"} 1.5',
            'prefork_limits_passed_total{limit="hard_memory"} 2', 'prefork_limits_passed_total{limit="request_timeout"} 0',
            'prefork_generation_requests_total{generation="1.2",class="5xx"} 1',
            'prefork_requests_total{class="2xx"} 8', 'prefork_requests_total{class="5xx"} 1',
            'prefork_request_seconds_bucket{le="0.005"} 4', 'prefork_request_seconds_bucket{le="5.0"} 4',
            'prefork_request_seconds_bucket{le="10.0"} 9', 'prefork_request_seconds_bucket{le="+Inf"} 10',
            "prefork_request_seconds_sum 2.5", "prefork_request_seconds_count 10", "prefork_access_log_lost_total 6",
            'prefork_worker_threads{generation="1.2",number="0"} 4', 'prefork_worker_threads_busy{generation="1.2",number="0"} 3',
        ):
            self.assertIn(line, lines)
        self.assertFalse([line for line in lines if "number=\"1\"" in line])

    def test_the_form(self) -> None:
        """Each line is one of a metric that was described before it, and all lines of a metric are together."""
        seen: list[str] = []
        for line in metrics_of(STATUS).splitlines():
            comment = re.fullmatch(r"# (HELP|TYPE) (\w+) .+", line)
            sample = re.fullmatch(r'(\w+)(\{\w+="[^"]*"(,\w+="[^"]*")*\})? -?\d+(\.\d+)?', line)
            self.assertTrue(comment or sample, line)
            if comment and comment[1] == "HELP":
                self.assertNotIn(comment[2], seen)
                seen.append(comment[2])
            elif sample:
                self.assertEqual(sample[1].removesuffix("_bucket").removesuffix("_sum").removesuffix("_count"), seen[-1])
        self.assertEqual(set(seen), set(METRICS))

    def test_a_service_whose_workers_count_nothing(self) -> None:
        status = {**STATUS, "requests": None, "workers": [{**WORKER, "requests": None}]}
        self.assertFalse([line for line in metrics_of(status).splitlines() if "_request" in line or "thread" in line])

    def test_labels_are_quoted(self) -> None:
        status = {**STATUS, "generation": 'a"b\\c\nd'}
        self.assertIn('prefork_workers{generation="a\\"b\\\\c\\nd"} 2\n', metrics_of(status))

    def test_a_file_is_replaced_as_a_whole_and_goes_with_the_service(self) -> None:
        with tempfile.TemporaryDirectory() as room, mock.patch("prefork_service.metrics.say") as said:
            path = pathlib.Path(room) / "metrics"
            file = MetricsFile(path)
            file.write("one\n")
            with open(path) as reader:
                file.write("other\n")
                self.assertEqual(reader.read(), "one\n")
            self.assertEqual([path.read_text()], [other.read_text() for other in path.parent.iterdir()])
            file.end()
            file.end()
            self.assertFalse(path.exists())
            lost = MetricsFile(path / "nowhere")
            lost.write("x")
            lost.write("x")
            said.assert_called_once()


if __name__ == "__main__":
    unittest.main()
