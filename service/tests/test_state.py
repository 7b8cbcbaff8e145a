"""The state of the whole, and when it is news."""
import unittest

from prefork_service.state import IN_CHANGE, MEANINGS, SERVES, SETTLE_SECONDS, SHORT, STOPPED, News, Whole, whole_of


class StateTest(unittest.TestCase):
    def test_each_state(self) -> None:
        for word, is_started, wanted, running, state in (
            (None, False, 2, 0, IN_CHANGE), ("HUP", True, 2, 2, IN_CHANGE), ("USR2 attended", True, 2, 1, IN_CHANGE),
            ("USR1", True, 2, 2, SERVES), ("USR1", True, 2, 1, SHORT), (None, True, 2, 2, SERVES), (None, True, 2, 1, SHORT),
            (None, True, 2, 0, SHORT), (None, True, 0, 0, STOPPED), ("tick 0", True, 2, 0, SHORT),
        ):
            found = whole_of(word, is_started, wanted, running, "why")
            self.assertEqual(found.state, state, (word, is_started, wanted, running))
            self.assertEqual(found.as_json()["means"], MEANINGS[state])
            self.assertTrue(found.line.startswith(f"{state}: "), found.line)

    def test_a_shortfall_says_why(self) -> None:
        self.assertEqual(whole_of(None, True, 4, 3, "worker 0 has ended").line, "short: wanted 4, runs 3: worker 0 has ended")


class NewsTest(unittest.TestCase):
    def states_told(self, seen: list[tuple[str, float]]) -> list[str]:
        news, found = News(), []
        for state, now in seen:
            running = 3 if state == SHORT else 4
            if told := news.take(Whole(state, 4, running), now):
                found.append(f"{told[1].state if told[1] else 'none'} {told[0].state}")
        return found

    def test_a_state_is_told_once(self) -> None:
        self.assertEqual(self.states_told([(IN_CHANGE, 0), (SERVES, 1), (SERVES, 2), (IN_CHANGE, 3), (SERVES, 4)]), ["none serves"])

    def test_a_worker_that_is_replaced_at_once_is_no_news(self) -> None:
        self.assertEqual(self.states_told([(SERVES, 0), (SHORT, 1), (SERVES, 1.5), (SHORT, 2), (SERVES, 2.5)]), ["none serves"])

    def test_a_shortfall_that_lasts_and_its_end(self) -> None:
        seen = [(SERVES, 0.0), (SHORT, 1.0), (SHORT, 1.0 + SETTLE_SECONDS), (SHORT, 9.0), (SERVES, 10.0)]
        self.assertEqual(self.states_told(seen), ["none serves", "serves short", "short serves"])

    def test_a_shortfall_is_told_again_once_it_is_known_who_fails(self) -> None:
        news = News()
        seen = (((), 0.0), ((), 2.0), ((0,), 2.1), ((0,), 5.0), ((0, 1), 6.0), ((0, 1, 2), 6.5), ((0, 1, 2), 7.5))
        told = [news.take(Whole(SHORT, 4, 3, "", "", failing), now) for failing, now in seen]
        self.assertEqual([it[0].failing if it else None for it in told], [None, (), (0,), None, None, None, (0, 1, 2)])

    def test_a_shortfall_lasts_from_its_begin_on(self) -> None:
        """It is told after a second, whatever became known of it meanwhile."""
        news = News()
        seen = (((), 3, 0.0), ((), 3, 0.5), ((0,), 3, 0.7), ((0,), 2, 0.9), ((0,), 2, SETTLE_SECONDS))
        told = [news.take(Whole(SHORT, 4, running, "", "", failing), now) for failing, running, now in seen]
        self.assertEqual([(it[0].failing, it[0].running) if it else None for it in told], [None, None, None, None, ((0,), 2)])

    def test_a_shortfall_of_another_size(self) -> None:
        news = News()
        told = [news.take(Whole(SHORT, 4, running), now) for running, now in ((3, 0), (3, 2), (2, 3), (2, 5), (2, 6))]
        self.assertEqual([it[0].running if it else None for it in told], [None, 3, None, 2, None])


if __name__ == "__main__":
    unittest.main()
