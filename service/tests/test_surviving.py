"""Workers that serve on after the death of their master: what they do, and what the service lets them do."""
import os
import pathlib
import socket
import subprocess
import tempfile
import threading
import time
import types
import unittest

from kit import BIN, OUT, PROGRAMS, SERVICE, WorkerTest, answer_of, free_address, is_open, until
from prefork_service import inheriting, surviving
from prefork_service.addresses import endpoint_of, socket_for
from prefork_service.conversation import Conversation
from prefork_service.leaving import Leaving, start_of
from prefork_service.counted import Record
from prefork_service.processes import is_ending
from prefork_service.surviving import Survivors, is_replaced, running
from test_wsgi import PYTHON

NAME = "1.1.0"
ADAPTED = (OUT / "prefork-activate", "--finish", "3", "--", OUT / "page", "{fd}")
WSGI = (PYTHON, BIN / "prefork-wsgi", "--finish", "3", "--chdir", PROGRAMS, "wsgi_page:application")
WORKERS = {"adapter": ADAPTED, "double": (SERVICE / "double" / "app", "child"), **({"wsgi": WSGI} if PYTHON else {})}


class SurvivorTest(WorkerTest):
    """Each kind of worker."""

    def setUp(self) -> None:
        super().setUp()
        self.place = self.room / "survivors"
        self.place.mkdir()

    def bereaved(self, command: tuple, **more: str) -> tuple[Conversation, str, list[pathlib.Path]]:
        """A worker whose master has died, its address, and its file."""
        address, names = free_address(), {"PREFORK_FOLDER": str(self.room), "PREFORK_WORKER": NAME, **more}
        talk = self.started(*command, addresses=(address,), **names)
        self.assertEqual(talk.hear(), "ready")
        talk.process.stdin.close()
        until(lambda: list(self.place.iterdir()), 5)
        return talk, address, list(self.place.iterdir())

    def test_it_serves_on_until_its_file_is_taken_away(self) -> None:
        for kind, command in WORKERS.items():
            with self.subTest(kind):
                talk, address, files = self.bereaved(command)
                self.assertEqual([file.name for file in files], [f"{NAME}.{talk.process.pid}"])
                for _ in range(5):
                    self.assertIn("version 1 ", answer_of(address))
                    time.sleep(0.1)
                files[0].unlink()
                self.assertEqual((talk.wait(), talk.rest(), is_open(address)), (0, b"", True))

    def test_it_finishes_where_nobody_touches_its_file(self) -> None:
        for command in (command for kind, command in WORKERS.items() if kind != "double"):
            talk, address, files = self.bereaved(command)
            began = time.monotonic()
            while time.monotonic() - began < 5:
                os.utime(files[0])
                time.sleep(0.2)
            self.assertIn("version 1 ", answer_of(address))
            self.assertEqual((talk.wait(10), files[0].exists()), (0, False))

    def test_without_a_service_it_finishes_at_once(self) -> None:
        self.place.rmdir()
        for command in WORKERS.values():
            address = free_address()
            talk = self.started(*command, addresses=(address,), PREFORK_FOLDER=str(self.room), PREFORK_WORKER=NAME)
            self.assertEqual(talk.hear(), "ready")
            talk.process.stdin.close()
            self.assertEqual((talk.wait(), talk.rest()), (0, b""))
        self.assertFalse(self.place.exists())

    def test_one_that_is_not_ready_or_was_told_to_quit_does_not(self) -> None:
        names = {"PREFORK_FOLDER": str(self.room), "PREFORK_WORKER": NAME}
        for command in WORKERS.values():
            for told in ((), ("go", "quit")):
                talk = self.started(*command, addresses=(free_address(),), go=False, **names)
                talk.say(*told)
                talk.process.stdin.close()
                self.assertEqual((talk.wait(), list(self.place.iterdir())), (0, []), command)


class SurvivorsTest(unittest.TestCase):
    """What the service does. Its workers are processes that wait."""

    def setUp(self) -> None:
        room = tempfile.TemporaryDirectory()
        self.addCleanup(room.cleanup)
        self.folder = pathlib.Path(room.name)
        (self.folder / "workers").mkdir()
        self.leaving = Leaving(self.folder, 1000)
        self.survivors = Survivors(self.folder / "survivors", self.leaving)
        self.survivors.open()

    def started(self, name: str = NAME) -> tuple[subprocess.Popen, pathlib.Path]:
        """A worker that has survived its master, and its file."""
        process = subprocess.Popen(["sleep", "1000"], env={**os.environ, "PREFORK_FOLDER": str(self.folder)})
        self.addCleanup(process.wait)
        self.addCleanup(process.kill)
        (self.folder / "workers" / name).write_text(f"{process.pid}\n")
        file = self.folder / "survivors" / f"{name}.{process.pid}"
        file.touch()
        return process, file

    def look(self, masters: tuple[int, ...] = (), wanted: int = 2) -> list[int]:
        """Those that serve on after the next look."""
        self.survivors.next_look = 0.0
        self.survivors.tend(masters, wanted)
        return sorted(one.process for one in self.survivors.now)

    def test_those_that_serve_on_are_counted_and_touched(self) -> None:
        process, file = self.started()
        os.utime(file, (1, 1))
        self.assertEqual(self.look(), [process.pid])
        self.assertEqual(file.read_text(), start_of(process.pid))
        self.assertGreater(file.stat().st_mtime, 1)
        self.assertEqual(self.survivors.as_json(), [{"worker": NAME, "process": process.pid}])

    def test_those_that_have_ended_are_forgotten(self) -> None:
        process, file = self.started()
        self.look()
        process.kill()
        process.wait()
        self.assertEqual((self.look(), file.exists()), ([], False))

    def test_another_process_with_such_a_number_is_left_alone(self) -> None:
        for noted in ("1", ""):
            other = subprocess.Popen(["sleep", "1000"], env={"PREFORK_FOLDER": "/elsewhere"})
            self.addCleanup(other.wait)
            self.addCleanup(other.kill)
            file = self.folder / "survivors" / f"{NAME}.{os.getppid() if not noted else other.pid}"
            file.write_text(noted)
            self.assertEqual((self.look(), file.exists(), other.poll()), ([], False, None), noted)

    def test_they_finish_once_others_serve_in_their_place(self) -> None:
        record = Record()
        record.wanted, record.workers = 2, [0, 1]
        process, file = self.started()
        self.look()
        self.assertEqual(self.survivors.settle("lost m2", record, [2]), 0)
        self.assertEqual(self.survivors.settle("degraded target 2 cause 3 pid no-file", record, [2]), 0)
        self.assertTrue(file.exists())
        self.assertEqual(self.survivors.settle("done cause none pid no-file", record, [2]), 1)
        self.assertFalse(file.exists())
        self.assertIn((process.pid, start_of(process.pid)), self.leaving.due)

    def test_workers_that_a_block_has_counted_are_no_others(self) -> None:
        """Their master dies as the block is told: nobody serves in their place. A worker of an earlier master may have had the
        same name."""
        record = Record()
        record.wanted, record.workers, record.generation = 2, [0, 1], "2.3"
        files = [self.started(name)[1] for name in ("2.3.0", "1.2.1", "2.3.0", "2.3.1")]
        self.look()
        self.assertEqual(self.survivors.settle("done cause none pid no-file", record, [2]), 2)
        self.assertEqual([file.exists() for file in files], [False, False, True, True])
        record.generation = "1.1"
        self.assertEqual(self.survivors.settle("done cause none pid no-file", record, [2]), 2)

    def test_which_reports_say_that_others_serve(self) -> None:
        record, all_run = Record(), Record()
        record.wanted, record.workers = 3, []
        all_run.wanted, all_run.workers = 3, [0, 1, 2]
        for report, sizes, found, wanted in (
            ("done cause none", [3], all_run, True), ("rolled-back cause 2", [3], all_run, True),
            ("rolled-back cause 2", [3], record, False), ("done cause none", [3], record, False),
            ("degraded target 2 cause 3", [3], record, True), ("degraded target 3 cause 3", [3], record, False),
            ("degraded target 1,0 cause 3", [2, 1], record, True), ("degraded target 0,1 cause 3", [2, 1], record, False),
            ("degraded old 1,1 cause 3", [2, 0], record, True), ("refused V1", [3], all_run, False), ("lost m2", [3], all_run, False),
        ):
            self.assertEqual(is_replaced(report, found, sizes), wanted, (report, sizes))

    def test_those_whose_master_runs_and_waits_for_them(self) -> None:
        process, file = self.started()
        other, _ = self.started("2.2.0")
        self.assertEqual(len(self.look((os.getpid(),))), 2)
        (self.folder / "workers" / "2.2.0").write_text("")
        self.assertEqual(self.look((1,)), sorted((process.pid, other.pid)))
        self.assertEqual(self.look((os.getpid(),)), sorted((process.pid, other.pid)))
        self.assertEqual((self.look((os.getpid(),)), file.exists()), ([], False))

    def test_a_worker_of_a_shim_is_known_by_its_shim(self) -> None:
        """The worker is no child of its master, and its shim is one."""
        process, _ = self.started()
        shim = f"sleep 1000 & echo $! >>{self.folder}/workers/{NAME}; read line; kill $!"
        holder = subprocess.Popen(["sh", "-c", shim], stdin=subprocess.PIPE, env={**os.environ, "PREFORK_FOLDER": str(self.folder)})
        self.addCleanup(holder.communicate)
        file = self.folder / "workers" / NAME
        self.assertTrue(until(lambda: len(file.read_text().split()) == 2))
        worker = int(file.read_text().split()[1])
        (self.folder / "survivors" / f"{NAME}.{worker}").touch()
        self.assertEqual(self.look((holder.pid,)), sorted((process.pid, worker)))
        self.assertIn(worker, [one.process for one in self.survivors.now])
        self.leaving.take(NAME)
        self.leaving.due = {key: (name, 0.0) for key, (name, _) in self.leaving.due.items()}
        # As long as the worker serves on, the time of the shim has not begun.
        self.assertEqual(self.leaving.tend([worker]), [])
        self.leaving.next_look, self.leaving.due = 0.0, {key: (name, 0.0) for key, (name, _) in self.leaving.due.items()}
        self.assertEqual(self.leaving.tend([]), [NAME])

    def test_those_of_a_second_master_that_has_died(self) -> None:
        """They take the place of those of the first one, where they are enough."""
        first = [self.started(f"1.1.{at}")[0].pid for at in range(2)]
        self.survivors.note_death()
        self.assertEqual(self.look(), sorted(first))
        one = self.started("1.1.0")[0].pid
        self.assertEqual(self.look(), sorted([*first, one]))
        other = self.started("1.1.1")[0].pid
        self.look()
        self.assertEqual(self.look(), sorted([one, other]))

    def test_a_stop(self) -> None:
        process, file = self.started()
        self.survivors.close()
        self.assertFalse(file.parent.exists())
        # It has its time, and the stop waits for it.
        self.assertIn((process.pid, start_of(process.pid)), self.leaving.due)
        self.assertIsNone(process.poll())
        self.leaving.kill_all()
        self.assertEqual(process.wait(10), -9)
        self.assertEqual(self.look(), [])
        self.survivors.open()
        self.assertTrue(file.parent.exists())

    def test_a_folder_that_somebody_has_removed(self) -> None:
        self.survivors.place.rmdir()
        self.assertEqual(self.look(), [])
        self.assertTrue(self.survivors.place.exists())

    def test_a_disk_that_is_full(self) -> None:
        """The start that can't be noted is remembered."""
        process, file = self.started()
        before, surviving.note = surviving.note, lambda *_: None
        self.addCleanup(setattr, surviving, "note", before)
        self.assertEqual((self.look(), file.read_text()), ([process.pid], ""))
        self.assertEqual(self.look(), [process.pid])

    def test_those_of_an_earlier_service_make_way(self) -> None:
        """Where they have an address for which there is no socket; not otherwise."""
        address, unix, free = free_address(), str(self.folder / "site.sock"), free_address()
        six = f"[::1]:{free_address().rpartition(':')[2]}"
        process, file = self.started()
        folder = types.SimpleNamespace(path=self.folder, survivors=self.folder / "survivors")
        inheriting.make_way(folder, [free, str(self.folder / "none.sock"), "x:y"])
        self.assertTrue(file.exists())
        for one in (address, six, unix):
            file.touch()
            listener = socket_for(one)
            listener.bind(endpoint_of(one))
            listener.listen()
            waited = threading.Thread(target=inheriting.make_way, args=(folder, [one, free]))
            waited.start()
            self.assertTrue(until(lambda: not file.exists()), one)
            self.assertTrue(waited.is_alive())
            listener.close()
            waited.join(5)
            self.assertFalse(waited.is_alive())
        self.assertIsNone(process.poll())

    def test_masters_of_which_one_is_about_to_end(self) -> None:
        process = subprocess.Popen(["sleep", "1000"])
        self.addCleanup(process.wait)
        self.assertEqual(running([os.getpid(), process.pid]), [os.getpid(), process.pid])
        process.kill()
        self.assertTrue(until(lambda: is_ending(process.pid)))
        self.assertEqual(running([os.getpid(), process.pid]), [])


if __name__ == "__main__":
    unittest.main()
