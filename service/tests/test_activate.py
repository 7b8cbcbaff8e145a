"""prefork-activate: a worker that is another program."""
import os
import pathlib
import signal
import socket
import threading
import unittest

from kit import OUT, PROGRAMS, PYTHON, SERVICE, WorkerTest, answer_of, free_address, has_ipv6, is_open, marked, until
from prefork_service.conversation import END, NO_OUTPUT, Conversation

ACTIVATE, PAGE = OUT / "prefork-activate", OUT / "page"
SCRIPT = [PYTHON, PROGRAMS / "page.py"]


def name_of(number: int) -> str:
    """The name of a process."""
    try:
        return pathlib.Path(f"/proc/{number}/comm").read_text().strip()
    except OSError:
        return ""


class ReadyTest(WorkerTest):
    def served(self, *command, addresses=None) -> None:
        """The worker becomes ready, serves, and finishes."""
        addresses = addresses or (free_address(),)
        talk = self.started(ACTIVATE, *command, addresses=addresses)
        self.assertEqual(talk.hear(), "ready")
        for address in addresses:
            self.assertIn("version 1 ", answer_of(address))
        talk.say("ping", "tick 12345", "usr1", "ping", "quit")
        self.assertEqual([talk.hear() for _ in range(5)], ["pong", "beat 12345 7", "pong", "gone", END])
        self.assertEqual(talk.wait(), 0)
        self.assertEqual(self.left(), [])

    def test_a_number_in_an_argument(self) -> None:
        self.served("--", PAGE, "{fd}")

    def test_two_numbers(self) -> None:
        self.served("--", PAGE, "{fd0}", "{fd1}", addresses=(free_address(), free_address()))

    def test_the_environment(self) -> None:
        self.served("--env", "SOCKET={fd}", "--", "sh", "-c", f'exec {PAGE} "$SOCKET"')

    def test_listen_fds(self) -> None:
        self.served("--", *SCRIPT)

    def test_ready_by_notify(self) -> None:
        self.served("--ready", "notify", "--", *SCRIPT)

    def test_ready_by_a_request(self) -> None:
        self.served("--ready", "probe", "--probe", "/", "--", *SCRIPT)

    def test_a_unix_socket(self) -> None:
        talk = self.started(ACTIVATE, "--", PAGE, "{fd}", addresses=(str(self.room / "site.sock"),))
        self.assertEqual(talk.hear(), "ready")
        talk.say("quit")
        self.assertEqual(talk.hear(), "gone")

    def test_a_keeper_that_ends_between_two_addresses(self) -> None:
        for command in ((ACTIVATE, "--", PAGE), (SERVICE / "double" / "app", "child")):
            places = [self.room / f"{command[0].name}{number}.sock" for number in range(2)]
            talk = self.started(*command, addresses=(str(places[0]),), go=False)
            self.assertTrue(until(places[0].exists))
            talk.say("usr1", "ping")
            self.assertEqual(talk.hear(), "pong")
            self.replace_keeper()
            talk.say(f"listener {places[1]}", "go")
            self.assertEqual(talk.hear(), "ready", command)
            talk.say("quit")
            self.assertEqual(talk.hear(), "gone")

    def test_a_connection_that_is_dropped_before_it_is_answered(self) -> None:
        """As a keeper does with one on which nothing was said for too long: the worker asks once more."""
        place, (host, port) = self.room / "other.sock", free_address().split(":")
        with socket.socket(socket.AF_UNIX, socket.SOCK_SEQPACKET) as door, socket.create_server((host, int(port))) as listener:
            door.bind(str(place))
            door.listen()
            door.settimeout(60)
            talk = self.started(ACTIVATE, "--", PAGE, "{fd}", addresses=(f"{host}:{port}",), PREFORK_KEEPER=str(place))
            door.accept()[0].close()
            hold, _ = door.accept()
            with hold:
                self.assertEqual(hold.recv(200).decode(), f"{host}:{port}")
                socket.send_fds(hold, [b"ok"], [listener.fileno()])
                self.assertEqual(talk.hear(), "ready")

    def test_names_are_filled_in(self) -> None:
        one, two = free_address(), free_address()
        script = 'test "$A" = "%s 3;4; %s=3,%s=4 {other} $R" -a -d "$R" && exec %s 3 4' % (two, one, two, PAGE)
        values = ("--env", "A={address1} {fds} {fpm} {other} {room}", "--env", "R={room}")
        talk = self.started(ACTIVATE, *values, "--", "sh", "-c", script, addresses=(one, two))
        self.assertEqual(talk.hear(), "ready")

    @unittest.skipUnless(has_ipv6(), "this machine has no IPv6")
    def test_php_fpm_has_no_brackets_around_an_ipv6_host(self) -> None:
        """It knows the socket of `listen = [::1]:80` as ::1:80, and would open another one."""
        one = free_address()
        six = f"[::1]:{one.rpartition(':')[2]}"
        script = 'test "$A" = "%s=3,%s=4 %s" && exec %s 3 4' % (one, six.replace("[", "").replace("]", ""), six, PAGE)
        talk = self.started(ACTIVATE, "--env", "A={fpm} {address1}", "--", "sh", "-c", script, addresses=(one, six))
        self.assertEqual(talk.hear(), "ready")

    def test_a_program_has_the_addresses_of_its_configuration_in_its_order(self) -> None:
        """A master that reloads names those of the configuration before, too."""
        old, new, stays = (free_address() for _ in range(3))
        script = 'test "$A" = "%s 3;4; %s=3,%s=4" && exec %s 3 4' % (new, new, stays, PAGE)
        values = ("--env", "A={address0} {fds} {fpm}")
        told = {"addresses": (old, stays, new), "PREFORK_ADDRESSES": f"{new} {stays}"}
        talk = self.started(ACTIVATE, *values, "--", "sh", "-c", script, **told)
        self.assertEqual(talk.hear(), "ready")
        self.assertFalse(is_open(old))
        for address in (new, stays):
            self.assertIn("version 1 ", answer_of(address))
        talk.say(f"close {old}", "ping")
        self.assertEqual(talk.hear(), "pong")

    def test_an_address_is_not_taken_for_another_one(self) -> None:
        one = free_address()
        for others in (f"{one}1", f"1{one}", "x"):
            talk = self.started(ACTIVATE, "--", PAGE, "3", addresses=(one,), PREFORK_ADDRESSES=others)
            self.assertEqual((talk.hear(), talk.wait()), (END, 1), others)

    def test_only_the_program_has_its_sockets(self) -> None:
        place = self.room / "site.sock"
        talk = self.started(ACTIVATE, "--", PAGE, "{fd}", addresses=(str(place),))
        self.assertEqual(talk.hear(), "ready")
        listens = {}
        for number in marked(self.mark):
            name = pathlib.Path(f"/proc/{number}/comm").read_text().strip()
            with open("/proc/net/unix") as table:
                inodes = {line.split()[6] for line in table if line.rstrip().endswith(str(place))}
            links = [os.readlink(one) for one in pathlib.Path(f"/proc/{number}/fd").iterdir() if one.is_symlink()]
            listens[name] = any(f"socket:[{inode}]" in links for inode in inodes)
        self.assertEqual(listens.pop("page"), True, listens)
        self.assertEqual((len(listens), any(listens.values())), (2, False), listens)
        talk.say("quit")
        self.assertEqual(talk.hear(), "gone")

    def test_ready_only_once_it_accepts(self) -> None:
        flag = self.room / "flag"
        wait = f"while [ ! -e {flag} ]; do sleep 0.05; done; exec {PAGE} {{fd}}"
        for how in (["accept"], ["notify"], ["probe", "--probe", "/"]):
            flag.unlink(missing_ok=True)
            program = f"exec {PYTHON} {PROGRAMS / 'page.py'}"
            script = wait if how == ["accept"] else wait.replace(f"exec {PAGE} {{fd}}", program)
            # (the shell stays the process of LISTEN_PID)
            talk = self.started(ACTIVATE, "--ready", *how, "--", "sh", "-c", script, addresses=(free_address(),))
            self.assertEqual(talk.hear(0.5), NO_OUTPUT, how)
            talk.say("ping")
            self.assertEqual(talk.hear(), "pong")
            flag.touch()
            self.assertEqual(talk.hear(), "ready", how)

    def test_one_of_two_sockets_is_not_enough(self) -> None:
        talk = self.started(ACTIVATE, "--", PAGE, "{fd0}", addresses=(free_address(), free_address()))
        self.assertEqual(talk.hear(1.0), NO_OUTPUT)

    def test_an_address_at_which_a_program_does_not_accept_is_named(self) -> None:
        reasons, addresses = self.room / "reasons", (free_address(), free_address())
        reasons.touch()
        names = {"PREFORK_FOLDER": str(self.room), "PREFORK_WORKER": "1.2.0"}
        talk = self.started(ACTIVATE, "--ready-within", "2", "--", PAGE, "{fd0}", addresses=addresses, **names)
        self.assertEqual((talk.hear(), talk.wait()), (END, 1))
        self.assertEqual(reasons.read_text(), f"1.2.0 {PAGE} is not ready after 2 seconds: it does not accept at {addresses[1]}\n")
        reasons.unlink()

    def test_not_ready_in_time(self) -> None:
        talk = self.started(ACTIVATE, "--ready-within", "0.3", "--", "sleep", "1000", addresses=(free_address(),))
        self.assertEqual((talk.hear(), talk.wait()), (END, 1))
        self.assertEqual(marked(self.mark), [])

    def test_what_the_program_inherits(self) -> None:
        output = self.room / "out"
        script = f"ls /proc/$$/fd >{output}; env >>{output}; echo pong; exec {PAGE} 3"
        talk = self.started(ACTIVATE, "--", "sh", "-c", script, addresses=(free_address(),), NOTIFY_SOCKET="/x", PREFORK_FOLDER="/y")
        self.assertEqual(talk.hear(), "ready")
        text = output.read_text()
        numbers = [line for line in text.splitlines() if line.isdigit()]
        # (10 is the shell's own)
        self.assertEqual(set(numbers) - {"10"}, {"0", "1", "2", "3"})
        self.assertIn("LISTEN_FDS=1\n", text)
        for name in ("PREFORK_KEEPER", "PREFORK_FOLDER", "NOTIFY_SOCKET"):
            self.assertNotIn(f"{name}=", text)
        output.unlink()


class EndTest(WorkerTest):
    def test_a_program_that_cannot_be_started(self) -> None:
        talk = self.started(ACTIVATE, "--", "/nonexistent", addresses=(free_address(),))
        self.assertEqual((talk.hear(), talk.wait(), self.left()), (END, 1, []))

    def test_a_program_that_exits(self) -> None:
        talk = self.started(ACTIVATE, "--", "sh", "-c", "exit 7", addresses=(free_address(),))
        self.assertEqual((talk.hear(), talk.wait(), self.left()), (END, 1, []))

    def test_it_ends_with_the_program(self) -> None:
        address = free_address()
        talk = self.started(ACTIVATE, "--", PAGE, "{fd}", addresses=(address,))
        talk.hear()
        os.kill(int(answer_of(address).split()[-1]), signal.SIGKILL)
        self.assertEqual((talk.hear(), talk.wait(), self.left()), (END, 1, []))

    def test_quit_lets_a_request_end(self) -> None:
        address, answers, held = free_address(), [], self.room / "held"
        talk = self.started(ACTIVATE, "--", *SCRIPT, addresses=(address,), HELD=str(held))
        talk.hear()
        asked = threading.Thread(target=lambda: answers.append(answer_of(address, "/held")))
        asked.start()
        self.assertTrue(until(held.exists))
        talk.say("quit")
        until(lambda: False, 0.3)
        held.unlink()
        self.assertEqual((talk.hear(), talk.wait()), ("gone", 0))
        asked.join()
        self.assertIn("version 1 ", answers[0])

    def test_the_end_of_input_is_quit_without_an_answer(self) -> None:
        talk = self.started(ACTIVATE, "--", PAGE, "{fd}", addresses=(free_address(),))
        talk.hear()
        talk.process.stdin.close()
        self.assertEqual((talk.rest(), talk.wait(), self.left()), (b"", 0, []))

    def test_a_program_that_does_not_finish_is_killed(self) -> None:
        script = f"trap '' TERM; {PAGE} 3; sleep 1000"
        talk = self.started(ACTIVATE, "--finish", "0.3", "--", "sh", "-c", script, addresses=(free_address(),))
        talk.hear()
        talk.say("quit")
        self.assertEqual((talk.hear(), talk.wait(), self.left()), ("gone", 0, []))
        self.assertEqual(marked(self.mark), [])

    def test_killed_it_takes_all_with_it(self) -> None:
        # One that has left its session, and one whose parent has ended.
        script = f"setsid sleep 1000 & (sleep 1001 &) ; exec {PAGE} 3"
        talk = self.started(ACTIVATE, "--", "sh", "-c", script, addresses=(free_address(),))
        talk.hear()
        self.assertTrue(until(lambda: len(marked(self.mark)) >= 5), marked(self.mark))
        talk.process.kill()
        talk.process.wait()
        self.assertTrue(until(lambda: not marked(self.mark)), marked(self.mark))
        self.assertTrue(until(lambda: not self.left()), self.left())

    def begun(self, *options: str) -> tuple[Conversation, int]:
        """A worker whose program has left its session and lost a parent, and the process that holds the program."""
        script = f"setsid sleep 1000 & (sleep 1001 &) ; exec {PAGE} 3"
        talk = self.started(ACTIVATE, *options, "--", "sh", "-c", script, addresses=(free_address(),))
        self.assertEqual(talk.hear(), "ready")
        self.assertTrue(until(lambda: len(marked(self.mark)) >= 5), marked(self.mark))
        return talk, next(number for number in marked(self.mark) if name_of(number) == "prefork-hold")

    def test_what_a_killed_holder_leaves_is_ended_and_counted_until_it_is(self) -> None:
        talk, holder = self.begun()
        os.kill(holder, signal.SIGKILL)
        self.assertEqual((talk.hear(), talk.wait()), (END, 1))
        self.assertEqual((marked(self.mark), self.left()), ([], []))

    def test_a_holder_that_was_stopped_passes_on_that_it_is_told_to_finish(self) -> None:
        talk, holder = self.begun()
        os.kill(holder, signal.SIGSTOP)
        talk.say("quit")
        self.assertEqual((talk.hear(), talk.wait()), ("gone", 0))
        self.assertEqual((marked(self.mark), self.left()), ([], []))

    def test_nothing_is_left_of_a_killed_worker_whose_holder_was_stopped(self) -> None:
        talk, holder = self.begun()
        os.kill(holder, signal.SIGSTOP)
        talk.process.kill()
        talk.process.wait()
        self.assertTrue(until(lambda: not marked(self.mark)), marked(self.mark))
        self.assertTrue(until(lambda: not self.left()), self.left())

    def test_a_program_that_was_stopped_is_killed(self) -> None:
        talk, _ = self.begun("--finish", "0.3")
        os.kill(next(number for number in marked(self.mark) if name_of(number) == "page"), signal.SIGSTOP)
        talk.say("quit")
        self.assertEqual((talk.hear(), talk.wait()), ("gone", 0))
        self.assertEqual((marked(self.mark), self.left()), ([], []))

    def test_what_a_program_leaves_ends_with_it(self) -> None:
        talk = self.started(ACTIVATE, "--", "sh", "-c", f"setsid sleep 1000 & exec {PAGE} 3", addresses=(free_address(),))
        talk.hear()
        talk.say("quit")
        self.assertEqual((talk.hear(), talk.wait()), ("gone", 0))
        self.assertEqual(marked(self.mark), [])

    def test_lines_that_no_master_says(self) -> None:
        for line in ("pi", "tick", "listener 127.0.0.1:1", "go", "x" * 5000):
            talk = self.started(ACTIVATE, "--", PAGE, "{fd}", addresses=(free_address(),))
            talk.hear()
            talk.say(line)
            self.assertEqual((talk.hear(), talk.wait()), (END, 1), line)

    def test_a_master_that_has_gone(self) -> None:
        talk = self.started(ACTIVATE, "--", PAGE, "{fd}", addresses=(free_address(),), go=False)
        talk.process.stdout.close()
        talk.say("go")
        self.assertEqual((talk.wait(), self.left()), (0, []))

    def test_an_address_that_is_taken(self) -> None:
        with socket.socket() as other:
            other.bind(("127.0.0.1", 0))
            other.listen()
            talk = self.started(ACTIVATE, "--", PAGE, "{fd}", addresses=("127.0.0.1:%d" % other.getsockname()[1],))
            self.assertEqual((talk.hear(), talk.wait()), (END, 1))

    def test_a_keeper_that_hangs(self) -> None:
        os.kill(self.keeper.pid, signal.SIGSTOP)
        self.addCleanup(os.kill, self.keeper.pid, signal.SIGCONT)
        talk = self.started(ACTIVATE, "--", PAGE, "{fd}", addresses=(free_address(),))
        self.assertEqual((talk.hear(), talk.wait()), (END, 1))
        os.kill(self.keeper.pid, signal.SIGCONT)


class ProbeTest(WorkerTest):
    def test_a_program_that_has_stopped_serving_misses_its_beats_and_is_ended(self) -> None:
        address = free_address()
        options = ("--ready", "probe", "--probe", "/", "--probe-within", "1", "--probe-limit", "10")
        talk = self.started(ACTIVATE, *options, "--", *SCRIPT, addresses=(address,))
        self.assertEqual(talk.hear(), "ready")
        said = []

        def says(wanted: str) -> bool:
            talk.say("tick 1")
            said.append(talk.hear())
            return said[-1] == wanted

        # (a program that has stood still for a second is late, too)
        self.assertTrue(until(lambda: says("beat 1 7")), said)
        threading.Thread(target=self.hangs, args=(address,), daemon=True).start()
        self.assertTrue(until(lambda: says("late")), said)
        talk.say("ping")
        self.assertEqual((talk.hear(), talk.hear(), talk.wait()), ("pong", END, 1))

    def hangs(self, address: str) -> None:
        try:
            answer_of(address, "/stuck")
        except OSError:
            pass

    def test_an_application_that_answers_with_errors_is_not_ready(self) -> None:
        options = ("--ready", "probe", "--probe", "/", "--env", "CODE=500")
        talk = self.started(ACTIVATE, *options, "--", *SCRIPT, addresses=(free_address(),))
        # (after three of them, and not when its time is over)
        self.assertEqual((talk.hear(), talk.wait()), (END, 1))

    def test_a_program_accepts_nothing_before_its_probe_is_answered(self) -> None:
        """The probe waits as long as a file is there. A client that has come before it is answered after it."""
        held, address, answers = self.room / "held", free_address(), list[str]()
        options = ("--ready", "probe", "--probe", "/held", "--probe-within", "60")
        talk = self.started(ACTIVATE, *options, "--", *SCRIPT, addresses=(address,), HELD=str(held))
        self.assertTrue(until(held.exists))
        client = threading.Thread(target=lambda: answers.append(answer_of(address)))
        client.start()
        self.assertEqual((talk.hear(1.0), answers), (NO_OUTPUT, []))
        held.unlink()
        self.assertEqual(talk.hear(), "ready")
        client.join()
        self.assertTrue(answers[0].startswith("version 1 "), answers)
        # One whose --env says what it loads is not held back.
        address = free_address()
        self.started(ACTIVATE, *options, "--env", "LD_PRELOAD=", "--", *SCRIPT, addresses=(address,), HELD=str(held))
        self.assertTrue(until(held.exists))
        self.assertIn("version 1 ", answer_of(address))
        held.unlink()

    def test_a_version_that_was_late_is_not_waited_for_again(self) -> None:
        """A master that upgrades starts several workers, one after another, before it goes back."""
        late = self.room / "commands" / "late"
        late.parent.mkdir()
        names = {"PREFORK_FOLDER": str(self.room)}
        slow = (ACTIVATE, "--ready-within", "0.3", "--", "sleep", "1000")
        late.touch()
        talk = self.started(*slow, addresses=(free_address(),), PREFORK_WORKER="1.12.0", **names)
        self.assertEqual((talk.hear(), talk.wait(), late.read_text()), (END, 1, "1.12\n"))
        # Another one of the version ends before its program is started; one of another version does not.
        for name, wanted in (("1.12.1", END), ("1.1.0", "ready"), ("11.12.0", "ready")):
            talk = self.started(ACTIVATE, "--", PAGE, "{fd}", addresses=(free_address(),), PREFORK_WORKER=name, **names)
            self.assertEqual(talk.hear(), wanted, name)
        late.unlink()
        talk = self.started(*slow, addresses=(free_address(),), PREFORK_WORKER="1.12.0", **names)
        self.assertEqual((talk.hear(), talk.wait(), late.exists()), (END, 1, False))
        late.parent.rmdir()

    def test_a_worker_notes_that_it_is_ready_while_its_version_is_tried(self) -> None:
        noted = self.room / "commands" / "ready"
        noted.parent.mkdir()
        names = {"PREFORK_FOLDER": str(self.room), "PREFORK_WORKER": "1.2.0"}
        talk = self.started(ACTIVATE, "--ready-within", "0.3", "--", "sleep", "1000", addresses=(free_address(),), **names)
        self.assertEqual((talk.hear(), noted.exists()), (END, False))
        noted.touch()
        for options, wanted in ((("--ready-within", "0.3", "--", "sleep", "1000"), END), (("--", PAGE, "{fd}"), "ready")):
            self.assertEqual(noted.read_text(), "")
            talk = self.started(ACTIVATE, *options, addresses=(free_address(),), **names)
            self.assertEqual(talk.hear(), wanted)
        self.assertTrue(until(lambda: noted.read_text() == f"1.2.0 {talk.process.pid}\n"), noted.read_text())
        noted.unlink()
        noted.parent.rmdir()


if __name__ == "__main__":
    unittest.main()
