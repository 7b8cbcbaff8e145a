"""The page of a service: its sentences, its stations, and what it shows of each state."""
import json
import re
import unittest
from typing import Any

from prefork_service import live, view
from prefork_service.done import Done
from prefork_service.progress import ANSWER, ARE_READY, IS_OVER, FINISH, ONE_IS_READY, ONE_MORE, STARTING, Progress, Running
from prefork_service.sentences import on_its_way, sentence
from prefork_service.stations import GOES_BACK, PLANS, SOME_RUN, shown_stations
from prefork_service.words import START
from test_metrics import STATUS
from test_page import read

BEGAN = "2026-01-01T13:21:00+00:00"
WHY = ["2 m1 await-ready 1.2 0 : gone: gunicorn ended with status 3"]


def done(word: str, report: str, reasons: list[str] | None = None) -> Done:
    return Done(word, BEGAN, 1.5, f"word {word}\n{report}\n", reasons or [], {})


def lit(word: str, far: dict[str, Any] | None = None) -> str:
    """The station that is lit."""
    return next(name for name, kind in shown_stations(word, far, 0) if kind == "now")


class SentenceTest(unittest.TestCase):
    def test_each_outcome(self) -> None:
        told: list[tuple[str, str, list[str], str]] = [
            ("HUP", "done cause none pid in-place", [], "The reload at 13:21 is done."),
            ("HUP", "rolled-back cause 2 pid no-file", WHY,
             "The reload at 13:21 was taken back: gunicorn ended with status 3. The version before serves."),
            ("USR2", "degraded target 1,2 cause 2 pid no-file", WHY,
             "The upgrade at 13:21 ended short: gunicorn ended with status 3. 3 workers are missing."),
            ("TTIN", "degraded target 1 cause none pid no-file", [], "The start of one worker more at 13:21 ended short. 1 worker is missing."),
            ("HUP", "refused C4", ["workers: out of range"], "The reload at 13:21 was refused: workers: out of range. Nothing has changed."),
            ("TTOU", "nothing", [], "The end of one worker at 13:21 had nothing to do."),
            (START, "done cause none pid no-file", [], "The start at 13:21 is done."),
            ("tick 7", "lost cause none pid no-file", [], "The tick at 13:21 was lost."),
        ]
        for word, report, reasons, wanted in told:
            self.assertEqual(sentence(done(word, report, reasons)), wanted)

    def test_the_present_word(self) -> None:
        self.assertEqual(on_its_way("HUP"), "A reload is on its way.")
        self.assertEqual(on_its_way("USR2 attended"), "An attended upgrade is on its way.")


class StationsTest(unittest.TestCase):
    def test_a_reload_goes_from_station_to_station(self) -> None:
        self.assertEqual(lit("HUP"), "open addresses")
        progress, told = Progress(), []
        for new, old, ready in ((0, 2, 0), (1, 2, 0), (2, 2, 0), (2, 2, 1), (2, 2, 2), (2, 1, 2), (2, 0, 2)):
            told.append(lit("HUP", progress.of("HUP", 0.0, 1.0, Running(new, old, 2, ready), 2)))
        self.assertEqual(told, ["open addresses", "start workers", "hear them ready", "hear them ready", *["let the old ones finish"] * 2, "count again"])

    def test_a_reload_whose_workers_note_nothing(self) -> None:
        progress = Progress()
        told = [lit("HUP", progress.of("HUP", 0.0, 1.0, Running(2, old, 2), 2)) for old in (2, 1, 0)]
        self.assertEqual(told, ["hear them ready", "let the old ones finish", "count again"])

    def test_an_upgrade(self) -> None:
        progress = Progress()
        told = [lit("USR2", progress.of("USR2", 0.0, 1.0, Running(*counts), 2)) for counts in ((0, 2, 2), (1, 2, 2), (2, 2, 2, 1), (2, 2, 2, 2))]
        self.assertEqual(told, ["start a new master", "start its workers", "hear them ready", "let the old workers finish"])

    def test_a_question_is_lit(self) -> None:
        for question in (1, 2):
            far = Progress().of("USR2 attended", 0.0, 1.0, Running(2, 2, 2, 2), 2, question)
            found = [kind for name, kind in shown_stations("USR2 attended", far, question) if name == "it asks"]
            self.assertEqual((found.index("now"), found.count("now")), (question - 1, 1))

    def test_a_worker_more_and_a_worker_less(self) -> None:
        told = [lit("TTIN", Progress().of("TTIN", 0.0, 1.0, Running(0, old, 2), 0)) for old in (2, 3)]
        self.assertEqual(told, ["start a worker", "hear it ready"])
        self.assertEqual(lit("TTOU", Progress().of("TTOU", 0.0, 1.0, Running(0, 2, 2), 0)), "let a worker finish")

    def test_new_workers_that_have_ended_go_back(self) -> None:
        progress = Progress()
        told = [lit("HUP", progress.of("HUP", 0.0, 1.0, Running(new, 2, 2), 2)) for new in (2, 1)]
        self.assertEqual(told, ["hear them ready", GOES_BACK])

    def test_other_words_have_none(self) -> None:
        self.assertEqual([shown_stations(word, None, 0) for word in (None, "tick 1", "USR1")], [[], [], []])

    def test_one_station_is_lit_in_each_plan(self) -> None:
        for word in PLANS:
            self.assertEqual([kind for _, kind in shown_stations(word, None, 0)].count("now"), 1)

    def test_each_step_is_at_a_station(self) -> None:
        """A step that no station knows would light the first one."""
        steps = {step for plan in PLANS.values() for _, found in plan for step in found}
        self.assertEqual(steps, {STARTING, SOME_RUN, ARE_READY, FINISH, IS_OVER, ONE_MORE, ONE_IS_READY, ANSWER})


class ViewTest(unittest.TestCase):
    def shown(self, **more: object) -> str:
        return view.page_of({**STATUS, **more}, [done("HUP", "rolled-back cause 2 pid no-file", WHY)], "plan <x>")

    def test_each_state_has_its_word_and_colour(self) -> None:
        for state, word in (("serves", "serves"), ("changes", "changes"), ("short", "is short"), ("stopped", "is stopped")):
            page = self.shown(state=state, line=f"{state}: x")
            self.assertIn(f'<section class="band {state}"', page)
            self.assertIn(f"site <strong>{word}</strong>", page)

    def test_it_says_what_runs_what_is_missing_and_what_was_done(self) -> None:
        found = read(self.shown())
        for wanted in ("1 of 3 workers, generation 1.2", "short: wanted 3, runs 1: worker 2 has failed", "1 ready, 1 ended, 1 missing",
                       "The reload at 13:21 was taken back: gunicorn ended with status 3.", "rolled-back cause 2 pid no-file", "plan <x>",
                       "The file has changed", "old master, process 3:"):
            self.assertIn(wanted, found.said)

    def test_the_newest_word_is_the_first(self) -> None:
        words = [done(word, "nothing") for word in (START, "HUP", "TTIN")]
        told = view.last_words(words)
        self.assertEqual(re.findall('<code class="word">([^<]*)', told), ["TTIN", "HUP", "start"])
        self.assertIn("None yet.", view.last_words([]))

    def test_the_call_that_went_wrong_is_named_where_nobody_noted_why(self) -> None:
        word = Done("HUP", BEGAN, 1.0, "word HUP\n1 m1 fork 1.2 0 : again\nrolled-back cause 1 pid no-file\n", [])
        self.assertIn("call that went wrong: <code>1 m1 fork 1.2 0 : again</code>", view.last_words([word]))

    def test_a_generation_beside_it(self) -> None:
        others = [{"generation": "1.3", "number": number, "process": 9, "seconds": 1, "state": state} for number, state in enumerate(("is ready", "starts"))]
        far = Progress().of("HUP", 0.0, 1.0, Running(3, 1, 1, 1), 3)
        page = self.shown(state="changes", line="changes: HUP", doing="HUP", others=others, progress=far)
        self.assertIn('aria-label="generation 1.3: 1 ready, 1 starting, 1 missing"', page)
        self.assertIn('<li class="now" aria-current="step">hear them ready</li>', page)
        # (what is wanted of it may be more than of the one that runs)
        page = self.shown(state="changes", line="changes: HUP", doing="HUP", others=others, progress={**far, "wanted": 5})
        self.assertIn('aria-label="generation 1.3: 1 ready, 1 starting, 3 missing"', page)
        self.assertIn("A reload is on its way.", page)

    def test_queues_and_memory(self) -> None:
        queue = {"address": "127.0.0.1:8080", "waiting": 3, "most": 128, "dropped": 5}
        worker = {**STATUS["workers"][0], "memory": 41_000_000}
        said = read(self.shown(queues=[queue], workers=[worker, {**worker, "memory": None}])).said
        self.assertIn("3 of at most 128 connections wait, 5 were dropped", said)
        self.assertIn("memory of all workers: 41 MB", said)
        self.assertNotIn("Load", read(self.shown(queues=[], workers=[], requests=None)).said)

    def test_a_question_says_what_to_type(self) -> None:
        service = {**STATUS["service"], "folder": "/run/a shop"}
        for question, then in ((1, "The old workers finish and leave. Then it asks again."), (2, "The old master leaves, and the upgrade is done.")):
            doing = {"state": "changes", "line": "changes: USR2 attended", "doing": "USR2 attended", "question": question}
            said = read(self.shown(service=service, **doing)).said
            self.assertRegex(said, rf"prefork-ctl --folder '/run/a shop' go\s*{then}")
            self.assertRegex(said, r"prefork-ctl --folder '/run/a shop' back\s*The (new workers|old master)")
            self.assertIn(f"Question {question} of 2, for", said)
        self.assertNotIn("It asks", read(self.shown()).said)

    def test_what_others_have_written_is_no_markup(self) -> None:
        bad = "<script>x</script>"
        word = Done("HUP", bad, 1.0, f"word HUP\nrolled-back cause 1 pid {bad}\n", [bad], {bad: [bad]})
        service = {"process": 1, "seconds": 60, "folder": f"/run/{bad}"}
        page = view.page_of({**STATUS, "service": service, "addresses": [bad], "line": f"short: {bad}"}, [word], bad)
        self.assertEqual(re.findall("<script[^>]*>", page), ['<script src="live.js" defer>'])
        read(page)

    def test_an_event_has_the_middle_of_the_page(self) -> None:
        told = view.event_of(STATUS, [], "")
        self.assertTrue(told.startswith(f"retry: {live.RETRY}\ndata: "))
        self.assertTrue(told.endswith("\n\n") and told.count("\n") == 3)
        event = json.loads(told.splitlines()[1].removeprefix("data: "))
        self.assertIn(f"<main>{event['middle']}</main>", view.page_of(STATUS, [], ""))
        self.assertIn(f"<title>{event['title']}</title>", view.page_of(STATUS, [], ""))


if __name__ == "__main__":
    unittest.main()
