"""Words that wait."""
import socket
import unittest

from prefork_service.words import MOST_WAITING, Queue, Word


class QueueTest(unittest.TestCase):
    def setUp(self) -> None:
        self.queue = Queue()

    def take(self, *words: str) -> None:
        for word in words:
            self.assertTrue(self.queue.take(Word(word)), word)

    def order(self) -> list[str]:
        return [self.queue.next().text for _ in range(len(self.queue))]

    def test_words_come_in_their_order(self) -> None:
        self.take("TTIN", "HUP", "USR2", "TTIN")
        self.assertEqual(self.order(), ["TTIN", "HUP", "USR2", "TTIN"])

    def test_hups_in_a_row_are_one_and_a_later_one_is_its_own(self) -> None:
        self.take("HUP", "HUP", "HUP", "TTIN", "HUP", "HUP")
        self.assertEqual(self.order(), ["HUP", "TTIN", "HUP"])

    def test_stops_go_first_and_each_is_one(self) -> None:
        self.take("HUP", "QUIT", "TTIN", "TERM", "QUIT")
        self.assertEqual(self.order(), ["QUIT", "TERM", "HUP", "TTIN"])

    def test_everybody_who_asked_has_the_answer(self) -> None:
        pairs = [socket.socketpair() for _ in range(3)]
        for ours, _ in pairs:
            self.queue.take(Word("HUP", ours))
        self.queue.next().answer("done\n")
        for _, theirs in pairs:
            with theirs:
                self.assertEqual(theirs.recv(100), b"done\n")
                self.assertEqual(theirs.recv(100), b"")

    def test_only_so_many_wait_but_a_stop_always_may(self) -> None:
        self.take(*["TTIN", "TTOU"] * (MOST_WAITING // 2))
        self.assertFalse(self.queue.take(Word("TTIN")))
        self.take("QUIT")
        self.assertEqual(len(self.queue), MOST_WAITING + 1)

    def test_only_so_many_ask_for_one_word(self) -> None:
        pairs = [socket.socketpair() for _ in range(MOST_WAITING)]
        for ours, theirs in pairs:
            self.assertTrue(self.queue.take(Word("HUP", ours)))
            self.addCleanup(theirs.close)
            self.addCleanup(ours.close)
        self.assertFalse(self.queue.take(Word("HUP")))

    def test_an_asker_that_has_gone_or_reads_nothing_delays_nobody(self) -> None:
        gone, deaf = socket.socketpair(), socket.socketpair()
        gone[1].close()
        self.addCleanup(deaf[1].close)
        word = Word("HUP", gone[0])
        word.join(Word("HUP", deaf[0]))
        word.answer("x" * 10_000_000)


if __name__ == "__main__":
    unittest.main()
