"""prefork-serve and prefork-ctl together, over a master that answers each word and starts nothing."""
import json
import os
import pathlib
import re
import signal
import socket
import subprocess
import tempfile
import threading
import tomllib
import unittest
from typing import Any

from kit import BIN, PROGRAMS, PYTHON, answer_of, built, free_address, is_open, until
from prefork_service.events import EVENTS

SECONDS = 60
BACK = "1 m1 fork 1.2 0 : forked\n2 m1 await-ready 1.2 0 : gone\n3 m1 census 1.1 : counted 0-1\nrolled-back cause 2 pid no-file\n"
NONE = "1 m1 fork 1.1 0 : forked\n2 m1 fork 1.1 1 : forked\n3 m1 await-ready 1.1 0 : gone\n4 m1 await-ready 1.1 1 : gone\n" \
    "5 m1 census 1.1 : counted none\ndegraded target 2 cause 3 pid no-file\n"


class Systemd:
    """What systemd is told, heard all the while: the system keeps few messages, and the service drops the rest."""

    def __init__(self, place: pathlib.Path):
        self.place, self.said, self.seen = place, list[str](), 0
        self.told = socket.socket(socket.AF_UNIX, socket.SOCK_DGRAM)
        self.told.bind(str(place))
        self.thread = threading.Thread(target=self.hear, daemon=True)
        self.thread.start()

    def hear(self) -> None:
        while text := self.told.recv(4096):
            self.said.append(text.decode())

    def comes(self, text: str) -> int:
        """How many messages came up to the next one that begins so."""
        assert until(lambda: any(it.startswith(text) for it in self.said[self.seen :])), (text, self.said)
        at = next(at for at in range(self.seen, len(self.said)) if self.said[at].startswith(text))
        self.seen = at + 1
        return at

    def close(self) -> None:
        with socket.socket(socket.AF_UNIX, socket.SOCK_DGRAM) as end:
            end.sendto(b"", str(self.place))
        self.thread.join()
        self.told.close()


def is_heard(path: pathlib.Path) -> bool:
    """Whether a process listens at the path of a Unix socket."""
    with socket.socket(socket.AF_UNIX) as asker:
        return not asker.connect_ex(str(path))


class WholeTest(unittest.TestCase):
    @classmethod
    def setUpClass(cls) -> None:
        built()

    def setUp(self) -> None:
        room = tempfile.TemporaryDirectory(prefix="whole-")
        self.addCleanup(room.cleanup)
        self.room = pathlib.Path(room.name)
        self.folder, self.blocks, self.said = self.room / "run", self.room / "blocks", self.room / "said"
        self.blocks.mkdir()
        self.address = free_address()
        self.configure(2)
        self.environment = {**os.environ, "BLOCKS": str(self.blocks)}
        self.serve: Any = None
        self.addCleanup(self.end)

    def configure(self, workers: int) -> None:
        text = f'listeners = ["{self.address}"]\nworkers = {workers}\ncommand = ["true"]\n'
        (self.room / "site.toml").write_text(text)

    def start(self, *options: str) -> None:
        command = [BIN / "prefork-serve", "--prefork", PROGRAMS / "master.py", *options, "site.toml"]
        with open(self.said, "a") as said:
            self.serve = subprocess.Popen(command, cwd=self.room, env=self.environment, stderr=said)
        self.assertTrue(until(lambda: self.status() and self.status()["generation"]), self.said.read_text())

    def start_without_a_file(self, *words: str) -> None:
        command = [BIN / "prefork-serve", "--prefork", PROGRAMS / "master.py", *words, "--", "true"]
        with open(self.said, "a") as said:
            self.serve = subprocess.Popen(command, cwd=self.room, env=self.environment, stderr=said)
        self.assertTrue(until(lambda: self.status() and self.status()["generation"]), self.said.read_text())

    def test_a_change_reloads(self) -> None:
        (self.room / "app.py").write_text("1")
        self.start("--reload-on-change", ".")
        (self.room / "app.py").write_text("2")
        journal = self.folder / "journal"
        self.assertTrue(until(lambda: " HUP: done " in journal.read_text()), journal.read_text())
        self.assertIn("prefork-serve: app.py changed: HUP\n", self.said.read_text())
        self.assertEqual(journal.read_text().count(" HUP begins\n"), 1)

    def test_a_check_without_a_file(self) -> None:
        command = [BIN / "prefork-serve", "--prefork", PROGRAMS / "master.py", "--check", "--listen", self.address, "--", "true"]
        found = subprocess.run(command, cwd=self.room, env=self.environment, capture_output=True, text=True, timeout=SECONDS)
        self.assertEqual((found.returncode, found.stdout.partition(": ")[2]), (0, "fits: 1 addresses, 2 workers\n"), found.stderr)
        self.assertFalse(self.folder.exists())

    def test_a_check_as_json(self) -> None:
        def found(*words: str) -> tuple[int, dict[str, Any], str]:
            command = [BIN / "prefork-serve", "--prefork", PROGRAMS / "master.py", "--check", "--json", "site.toml", *words]
            ended = subprocess.run(command, cwd=self.room, env=self.environment, capture_output=True, text=True, timeout=SECONDS)
            return ended.returncode, json.loads(ended.stdout), ended.stderr
        wanted = {"config": "site.toml", "fits": True, "addresses": 1, "workers": 2, "said": []}
        self.assertEqual(found(), (0, wanted, ""))
        (self.room / "site.toml").write_text('listeners = ["127.0.0.1:1"]\n[service]\nprogram = ["true"]\nnice = 99\nthread = 1\n')
        status, told, errors = found()
        self.assertEqual((status, told["fits"], told["addresses"], errors), (1, False, 0, ""))
        self.assertEqual([text.partition(": ")[0] for text in told["said"]], ["site.toml, line 4", "site.toml, line 5"])
        (self.room / "site.toml").unlink()
        self.assertEqual(found("--", "true")[:2], (1, {"config": "site.toml", "fits": False, "addresses": 0, "workers": 0, "said": ["site.toml: No such file or directory"]}))
        command = [BIN / "prefork-serve", "--json", "site.toml", "--", "true"]
        ended = subprocess.run(command, cwd=self.room, capture_output=True, text=True, timeout=SECONDS)
        self.assertEqual((ended.returncode, ended.stderr.splitlines()[-1]), (2, "prefork-serve: error: --json is an option of --check"))

    def test_a_service_without_a_file(self) -> None:
        other = free_address()
        self.start_without_a_file("--listen", self.address, "--listen", other, "--workers", "3")
        self.assertIn(f"prefork-serve: 3 workers at http://{self.address}/ http://{other}/\n", self.said.read_text())
        self.assertEqual(sorted(self.status()["addresses"]), sorted([self.address, other]))
        text = (self.folder / "config.toml").read_text()
        wanted = {"listeners": [self.address, other], "workers": 3, "timeout": 60}
        self.assertEqual(tomllib.loads(text), wanted)
        self.assertEqual(self.ctl("HUP").returncode, 0)
        self.serve.send_signal(signal.SIGQUIT)
        self.assertEqual(self.serve.wait(SECONDS), 0)
        left = {file.name for file in self.folder.iterdir()} - {"journal", "records", "blocks", ".prefork"}
        self.assertEqual(left, set())

    def end(self) -> None:
        if self.serve:
            self.serve.send_signal(signal.SIGQUIT)
            self.serve.wait(SECONDS)

    def ctl(self, *words: str) -> subprocess.CompletedProcess:
        command = [BIN / "prefork-ctl", *words]
        return subprocess.run(command, cwd=self.room, env=self.environment, capture_output=True, text=True, timeout=SECONDS)

    def status(self) -> Any:
        said = self.ctl("--json", "status").stdout
        return json.loads(said) if said else None

    def test_records_and_journal(self) -> None:
        self.start("--records", str(self.room / "kept"))
        (self.blocks / "HUP").write_text(BACK)
        with open(self.folder / "reasons", "a") as file:
            file.write("1.2.0 prefork-launch: /x: Permission denied\n1.1.1 it has ended by itself\n")
        sent = self.ctl("HUP")
        self.assertEqual((sent.returncode, sent.stdout), (3, f"word HUP\n{BACK}"))
        why = "2 m1 await-ready 1.2 0 : gone: prefork-launch: /x: Permission denied"
        self.assertIn(f"prefork-ctl: {why}\n", sent.stderr)
        self.assertIn(f"prefork-ctl: runs now: 2 workers of generation 1.1 at {self.address}\n", sent.stderr)
        last = self.status()["last"]
        self.assertEqual((last["reasons"], last["cause"]), ([why], "2 m1 await-ready 1.2 0 : gone"))
        self.ctl("TTIN")
        status = self.status()
        self.assertEqual(status["service"]["records"], str(self.room / "kept" / "records"))
        self.assertTrue(until(lambda: self.status()["service"]["seconds"] > 3))
        self.serve.kill()
        self.serve.wait()
        self.start("--records", str(self.room / "kept"))
        self.end()
        journal = re.sub(r"^\S+ ", "", (self.room / "kept" / "journal").read_text(), flags=re.M)
        for line in ("HUP begins", "HUP: rolled-back cause 2 pid no-file", f"HUP: {why}", "TTIN: done cause none pid no-file",
                     "worker 1.1.1: it has ended by itself", "the service ends"):
            self.assertEqual(journal.count(f"{line}\n"), 1, line)
        self.assertEqual(journal.count(" starts; its blocks are in "), 2)
        self.assertEqual(journal.count("tick 0: done"), 2)
        texts = [(self.room / "kept" / "records" / number / "blocks.1").read_text() for number in "12"]
        words = [re.findall(r"^word ((?!beat)\S+)", text, re.M) for text in texts]
        self.assertEqual(words, [["tick", "HUP", "TTIN"], ["tick", "QUIT"]])
        self.assertEqual(os.path.realpath(self.folder / "blocks"), str(self.room / "kept" / "records" / "2" / "blocks.1"))

    def test_words_are_rehearsed_as_the_service_runs_now(self) -> None:
        self.start()
        config, site = str(self.folder / "config.toml"), str(self.room / "site.toml")
        self.assertEqual(self.ctl("plan", "HUP").stdout, f"plan --why --from {config} --to {site} HUP\n")
        self.assertEqual(self.ctl("plan", "TTIN").stdout, f"plan --why --from {config} TTIN\n")
        (self.blocks / "TTIN").write_text("1 m1 census 1.1 : counted 0-2\ndone cause none pid no-file\n")
        (self.blocks / "tick").write_text("nothing\n")
        self.ctl("TTIN")
        options = "--events 2 --forbid degraded --require done --least 1"
        found = json.loads(self.ctl("--json", *options.split(), "explore", "USR2", "attended").stdout)
        options = f"--workers 3 {options}"
        wanted = f"explore --why --from {config} --to {site} {options} USR2 attended"
        self.assertEqual(found, {"status": 0, "lines": [wanted], "notes": []})
        (self.blocks / "WINCH").write_text("1 m1 census 1.1 : counted none\ndone cause none pid no-file\n")
        self.ctl("WINCH")
        self.assertEqual(self.ctl("plan", "TTIN").stdout, f"plan --why --from {config} --workers 0 TTIN\n")
        for words in (("plan",), ("plan", "XX"), ("plan", "HUP", "HUP"), ("--events", "2", "HUP"), ("--least", "1", "plan", "HUP")):
            self.assertEqual(self.ctl(*words).returncode, 2, words)
        self.assertEqual(self.ctl("--folder", "nowhere", "plan", "HUP").returncode, 1)

    def test_a_master_that_knows_limits_is_told_them(self) -> None:
        told = self.blocks / "arguments"
        for knows, options, wanted in (
            ("--other", (), ""), ("--answer-within <S>", (), " --answer-within 60"),
            ("--answer-within <S>", ("--answer-within", "0"), ""),
        ):
            told.touch()
            self.environment["HELP"] = knows
            self.start(*options)
            self.assertEqual(told.read_text().partition("next.toml")[2], wanted)
            self.end()

    def test_whom_a_master_has_killed_is_a_reason(self) -> None:
        self.start()
        (self.blocks / "HUP").write_text(BACK)
        (self.blocks / "errors").write_text("[INFO  prefork] killed worker 1.2 0, process 7: not ready within 480 s\n")
        self.assertIn(": gone: killed by its master: not ready within 480 s\n", self.ctl("HUP").stderr)
        self.assertIn("prefork-serve: worker 1.2.0 is killed by its master", self.said.read_text())

    def answer(self, address: str, path: str) -> str:
        return answer_of(address, path, SECONDS)

    def test_a_first_start_without_a_worker_fails(self) -> None:
        """The service ends with status 1 and the reason, unless it is told to go on."""
        self.environment["WORKERS"] = "0"
        (self.blocks / "tick").write_text(NONE)
        command = [BIN / "prefork-serve", "--prefork", PROGRAMS / "master.py", "site.toml"]
        systemd = Systemd(self.room / "notify")
        self.addCleanup(systemd.close)
        environment = {**self.environment, "NOTIFY_SOCKET": str(systemd.place)}
        found = subprocess.run(command, cwd=self.room, env=environment, capture_output=True, text=True, timeout=SECONDS)
        self.assertEqual(found.returncode, 1)
        # A unit that was ready for a moment would have started well.
        systemd.comes("STOPPING=1")
        self.assertNotIn("READY=1", systemd.said)
        self.assertIn("prefork-serve: no worker has started: workers 0, 1 have failed 2 times, last: await-ready: gone\n", found.stderr)
        self.start("--keep-trying")
        self.assertTrue(until(lambda: self.status()["state"] == "short"))
        status = self.status()
        self.assertEqual((status["wanted"], status["running"]), (2, 0))
        self.assertEqual([it["worker"] for it in status["failing"]], [0, 1])
        self.assertTrue(until(lambda: "short: wanted 2, runs 0: workers 0, 1 have failed" in self.said.read_text()))
        for number in range(2):
            (self.folder / "workers" / f"1.1.{number}").write_text(f"{self.serve.pid}\n")
        (self.blocks / "tick").write_text("1 m1 census 1.1 : counted 0-1\ndone cause none pid no-file\n")
        found = self.ctl("tick")
        self.assertEqual((found.returncode, found.stdout.splitlines()[-1]), (0, "done cause none pid no-file"))
        self.assertRegex(found.stdout, r"\Aword tick \d+\n")

    def test_it_is_waited_for_a_state_and_hooks_are_told(self) -> None:
        hook = self.room / "hook"
        hook.write_text('#!/bin/sh\ncat >"$0.$1.new"; mv "$0.$1.new" "$0.$1"\n')
        hook.chmod(0o755)
        options = [word for event in EVENTS for word in (f"--{event}", str(hook))]
        self.assertEqual(self.ctl("--wait", "serves", "--seconds", "0", "status").returncode, 1)
        self.assertEqual(self.ctl("--wait", "stopped", "status").stdout, "stopped: no service in run\n")
        self.start(*options)
        found = self.ctl("--wait", "serves", "status")
        self.assertEqual(found.returncode, 0)
        self.assertIn("state       serves: wanted 2, runs 2\n", found.stdout)
        self.assertEqual(self.ctl("--wait", "short", "--seconds", "0.1", "status").returncode, 1)

        def told(event: str) -> Any:
            file = self.room / f"hook.{event}"
            self.assertTrue(until(file.exists), (event, self.said.read_text()))
            return json.loads(file.read_text())
        self.assertEqual(self.ctl("reload").returncode, 0)
        self.assertEqual((told("on-done")["word"], told("on-done")["report"]), ("HUP", "done cause none pid no-file"))
        (self.blocks / "HUP").write_text(BACK)
        self.assertEqual(self.ctl("hup").returncode, 3)
        self.assertEqual(told("on-rolled-back")["cause"], "2 m1 await-ready 1.2 0 : gone")
        worker = self.folder / "workers" / "1.1.1"
        process = worker.read_text()
        worker.unlink()
        short = told("on-short")
        self.assertEqual((short["state"], short["wanted"], short["running"]), ("short", 2, 1))
        self.assertEqual(self.ctl("--wait", "short", "status").returncode, 0)
        worker.write_text(process)
        self.assertEqual(told("on-healed")["state"], "serves")
        said = self.said.read_text()
        lines = [line for line in said.splitlines() if "serves: " in line or "short: " in line]
        runs = f"prefork-serve: serves: 2 workers of generation 1.1 at {self.address}"
        self.assertEqual(lines, [runs, "prefork-serve: short: wanted 2, runs 1: 1 of 2 workers ended", runs])

    def test_words_that_are_not_known(self) -> None:
        self.start()
        for words, near in ((("HUPP",), "Do you mean HUP?"), (("restart",), ""), (("USR2", "attendd"), "Do you mean USR2 attended?")):
            found = self.ctl(*words)
            self.assertEqual((found.returncode, found.stdout), (2, "unread W1\n"))
            self.assertIn(near, found.stderr)
        (self.blocks / "TTOU").write_text("1 m1 census 1.1 : counted none\ndone cause none pid no-file\n")
        (self.blocks / "tick").write_text("nothing\n")
        self.assertIn("nobody serves: no worker is wanted, and connections wait until TTIN or HUP\n", self.ctl("ttou").stderr)
        self.assertEqual(self.ctl("--wait", "stopped", "status").returncode, 0)
        found = self.ctl("--folder", "nowhere", "HUP")
        self.assertIn("no service in nowhere: No such file or directory. Name its folder: --folder F, or", found.stderr)

    def test_systemd_is_told(self) -> None:
        systemd = Systemd(self.room / "notify")
        self.addCleanup(systemd.close)
        self.environment |= {"NOTIFY_SOCKET": str(systemd.place), "WATCHDOG_USEC": "1000000"}
        comes = systemd.comes
        self.start()
        comes("READY=1")
        runs = f"STATUS=2 workers of generation 1.1 at {self.address}"
        comes(runs)
        (self.blocks / "HUP").write_text(BACK)
        self.ctl("HUP")
        reloading = comes("RELOADING=1\nMONOTONIC_USEC=")
        self.assertTrue(reloading < comes("READY=1") < comes(f"{runs}; last word HUP: rolled-back cause 2 pid no-file"))
        self.ctl("TTIN")
        comes(f"{runs}; last word TTIN: done")
        self.assertEqual([text for text in systemd.said[reloading + 1 :] if text.startswith("RELOADING")], [])
        beats = [comes("WATCHDOG=1") for _ in range(3)]
        self.assertEqual(len(set(beats)), 3)
        streams: dict[str, Any] = {"stdout": subprocess.DEVNULL, "stderr": subprocess.DEVNULL}
        sent = subprocess.Popen([BIN / "prefork-ctl", "QUIT"], cwd=self.room, **streams)
        # Once as the word begins, and once at the very end.
        self.assertLess(comes("STOPPING=1"), comes("STOPPING=1"))
        sent.wait(SECONDS)
        self.serve.wait(SECONDS)

    def test_metrics_and_page_agree_with_the_status(self) -> None:
        measured, seen, file = free_address(), free_address(), self.room / "metrics"
        self.start("--metrics", measured, "--page", seen)
        (self.blocks / "HUP").write_text(BACK)
        self.ctl("HUP")
        self.assertIn('prefork_words_total{word="HUP",outcome="rolled-back"} 1\n', self.answer(measured, "/metrics"))
        self.assertTrue(until(lambda: "plan --why --from" in self.answer(seen, "/"), SECONDS))
        page = self.answer(seen, "/")
        for wanted in ("2 of 2 workers, generation 1.1", "serves: wanted 2, runs 2", "rolled-back cause 2 pid no-file", "2 m1 await-ready 1.2 0 : gone"):
            self.assertIn(wanted, page)
        self.assertIn("prefork_workers", self.answer(seen, "/metrics"))
        self.end()
        self.start("--metrics", str(file))
        self.assertTrue(until(file.exists))
        self.ctl("TTIN")
        self.assertIn('prefork_words_total{word="TTIN",outcome="done"} 1\n', file.read_text())
        self.end()
        self.assertFalse(file.exists())

    def watch(self) -> int:
        """The process of prefork-watch, if it runs."""
        for text in pathlib.Path(f"/proc/{self.serve.pid}/task/{self.serve.pid}/children").read_text().split():
            try:
                if "prefork-watch" in pathlib.Path(f"/proc/{text}/cmdline").read_text():
                    return int(text)
            except OSError:
                continue
        return 0

    def test_prefork_watch_hangs_or_is_killed_and_words_are_carried_out(self) -> None:
        seen = free_address()
        self.start("--page", seen)
        (self.blocks / "HUP").write_text(BACK)
        first = self.watch()
        os.kill(first, signal.SIGSTOP)
        found = self.ctl("HUP")
        self.assertEqual((found.returncode, found.stdout), (3, f"word HUP\n{BACK}"))
        found = self.ctl("status")
        self.assertEqual(found.returncode, 0, found.stderr)
        self.assertIn("state       serves: wanted 2, runs 2\n", found.stdout)
        self.assertIn("prefork-ctl: this is the status in short: prefork-watch, which tells it in full, does not answer just now\n", found.stderr)
        os.kill(first, signal.SIGKILL)
        self.assertTrue(until(lambda: self.watch() not in (0, first), SECONDS), self.said.read_text())
        self.assertTrue(until(lambda: "rolled-back" in self.page(seen), SECONDS))
        last = self.status()["last"]
        self.assertEqual((last["word"], last["cause"]), ("HUP", "2 m1 await-ready 1.2 0 : gone"))
        self.serve.kill()
        self.serve.wait(SECONDS)
        self.assertTrue(until(lambda: not is_open(seen), SECONDS))

    def page(self, address: str) -> str:
        try:
            return self.answer(address, "/")
        except OSError:
            return ""

    def test_what_is_removed_of_the_folder_is_made_again(self) -> None:
        self.start()
        for removed in ("ctl.sock", "keeper.sock", "workers", "serve.pid", "commands", "config.toml", "."):
            place = self.folder / removed
            with self.subTest(removed):
                before = self.status()["keeper"]["process"]
                remove = ["rm", "-rf", place if removed != "." else self.folder]
                # (the service may make a file again meanwhile)
                self.assertTrue(until(lambda: not subprocess.run(remove, stderr=subprocess.DEVNULL).returncode, SECONDS))
                self.assertTrue(until(lambda: place.exists() or removed == "config.toml", SECONDS), self.said.read_text())
                self.assertTrue(until(lambda: self.ctl("HUP").returncode == 0, SECONDS), self.said.read_text())
                if removed == "keeper.sock":
                    self.assertNotEqual(self.status()["keeper"]["process"], before)
                with socket.socket(socket.AF_UNIX, socket.SOCK_SEQPACKET) as asker:
                    self.assertTrue(until(lambda: asker.connect_ex(str(self.folder / "keeper.sock")) == 0, SECONDS))
                self.kill_master()
                self.assertTrue(until(lambda: self.ctl("HUP").returncode == 0, SECONDS), self.said.read_text())
        self.assertEqual(self.folder.stat().st_mode & 0o777, 0o700)
        self.assertEqual(self.ctl("QUIT").returncode, 0)
        self.assertEqual(self.serve.wait(SECONDS), 0)

    def test_files_of_workers_that_have_ended_go_though_nobody_asks(self) -> None:
        self.start()
        ended = subprocess.Popen(["true"])
        ended.wait()
        files = [self.folder / "workers" / f"1.{number}.0" for number in range(2, 32)]
        for file in files:
            file.write_text(f"{ended.pid}\n")
        self.serve.send_signal(signal.SIGHUP)
        self.assertTrue(until(lambda: not any(file.exists() for file in files), SECONDS))
        self.assertTrue((self.folder / "workers" / "1.1.0").exists())

    def kill_master(self) -> None:
        starts = self.status()["master_restarts"]
        os.kill(self.status()["masters"][0], signal.SIGKILL)
        self.assertTrue(until(lambda: (self.status() or {"master_restarts": 0})["master_restarts"] > starts, SECONDS))

    def test_an_empty_configuration_is_refused(self) -> None:
        self.start()
        (self.room / "site.toml").write_text("")
        sent = self.ctl("HUP")
        self.assertEqual((sent.returncode, sent.stdout), (1, "word HUP\nrefused no-listeners\n"))
        self.assertIn("no listeners and no groups", sent.stderr)
        self.assertEqual(self.status()["addresses"], [self.address])
        self.end()
        command = [BIN / "prefork-serve", "--prefork", PROGRAMS / "master.py", "--folder", "other", "site.toml"]
        found = subprocess.run(command, cwd=self.room, env=self.environment, capture_output=True, text=True, timeout=SECONDS)
        self.assertEqual(found.returncode, 1)
        self.assertIn("no listeners and no groups", found.stderr)

    def test_a_page_at_a_unix_socket_starts_again(self) -> None:
        page = self.room / "page.sock"
        self.start("--page", str(page))
        self.end()
        self.assertFalse(page.exists())
        self.start("--page", str(page))
        self.assertTrue(until(page.exists, SECONDS))
        self.serve.kill()
        self.serve.wait(SECONDS)
        if not page.exists():
            # (prefork-watch has seen the end in time, and was not killed)
            with socket.socket(socket.AF_UNIX) as stale:
                stale.bind(str(page))
        self.start("--page", str(page))
        self.assertTrue(until(lambda: is_heard(page), SECONDS))

    def test_signals_that_were_blocked_are_heard(self) -> None:
        command = [PYTHON, "-c", "import os, signal, sys; signal.pthread_sigmask(signal.SIG_BLOCK, range(1, 32)); "
                   "os.execv(sys.argv[1], sys.argv[1:])", BIN / "prefork-serve", "--prefork", PROGRAMS / "master.py", "site.toml"]
        with open(self.said, "a") as said:
            self.serve = subprocess.Popen(command, cwd=self.room, env=self.environment, stderr=said)
        self.assertTrue(until(lambda: self.status(), SECONDS))
        self.serve.send_signal(signal.SIGQUIT)
        self.assertEqual(self.serve.wait(SECONDS), 0)

    def test_a_start_that_is_stopped_leaves_nothing_and_shows_no_trace(self) -> None:
        for moment in range(8):
            command = [BIN / "prefork-serve", "--prefork", PROGRAMS / "master.py", "site.toml"]
            serve = subprocess.Popen(command, cwd=self.room, env=self.environment, stderr=subprocess.PIPE, text=True)
            self.assertTrue(until((self.folder / "serve.pid").exists, SECONDS))
            until(lambda: False, moment / 20)
            serve.send_signal(signal.SIGINT)
            said = serve.communicate(timeout=SECONDS)[1]
            self.assertNotIn("Traceback", said)
            self.assertIn(serve.returncode, (0, 1), said)
            self.assertEqual([name for name in os.listdir(self.folder) if name.endswith((".sock", ".pid", "workers"))], [], said)

    def test_a_descriptor_of_systemd_that_is_no_socket(self) -> None:
        script = 'LISTEN_FDS=2 LISTEN_PID=$$ exec "$@" 3<site.toml 4>&-'
        command = ["sh", "-c", script, "sh", BIN / "prefork-serve", "--prefork", PROGRAMS / "master.py", "site.toml"]
        with open(self.said, "a") as said:
            self.serve = subprocess.Popen(command, cwd=self.room, env=self.environment, stderr=said)
        self.assertTrue(until(lambda: self.status(), SECONDS))
        self.assertIn("descriptor 3 of systemd is not used: Socket operation on non-socket", self.said.read_text())


if __name__ == "__main__":
    unittest.main()
