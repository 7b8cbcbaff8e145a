"""The role for Ansible, run against five services of one machine."""
import json
import os
import pathlib
import re
import subprocess
import sys
from typing import Any

from gate.addresses import answer_of, is_answered
from gate.tally import ROOT
from gate.waiting import until
from shipping.debian import Root
from shipping.room import Room, needs, ran
from web.applications import install
from web.files import FAILS
from web.site import BIN, Site, catches, text_of

FLEET = ROOT / "fleet"
NAMES = ("one", "two", "three", "four", "five")
# Of the load of each service: five of them run at a time. And how many requests a busy machine has answered at least.
RATE, CLIENTS, PATIENCE, FEWEST = 25, 2, 50, 20
# The workers that each is to have.
WORKERS = 3
# What is said once after each batch.
PAUSE = "Pausing for 1 seconds"
# Where Ansible writes.
PLACES = ("ANSIBLE_HOME", "ANSIBLE_LOCAL_TEMP", "ANSIBLE_REMOTE_TEMP", "HOME")
# All of a service: a roll-out changes its program and its environment, and a way back takes them back.
TEMPLATE = """listeners = ["{{ address }}"]
workers = {{ workers }}
timeout = 60

[service]
program = {{ program | to_json }}
ready = "notify"
environment = { VERSION = "{{ version }}" }
"""


class Host(Site):
    """A service of the fleet, under a light load."""

    def begin(self, **settings: Any) -> None:
        install(self, "")
        self.program, self.is_in_file = [sys.executable, str(self.home / "page.py")], True
        self.set_up(**settings)
        self.serve = self.started()
        until("the first block", lambda: "\ndone " in self.blocks() and is_answered(self.first))
        load: list[Any] = [BIN / "prefork-load", "--json", "--clients", CLIENTS, "--rate", RATE, "--patience", PATIENCE]
        command = [str(word) for word in (*load, self.first)]
        self.load = subprocess.Popen(command, stdout=subprocess.PIPE, text=True, env=self.environment, cwd=self.room)
        until("the load", lambda: catches(self.load.pid, 15))

    def set_up(self, **settings: Any) -> None:
        """Writes the configuration of the first version, and keeps it."""
        self.configure(service={"program": self.program, "ready": "notify", "environment": {"VERSION": "1"}}, **settings)
        (self.room / "before.toml").write_text(text_of(self.config))

    def is_as_before(self) -> bool:
        return text_of(self.config) == text_of(self.room / "before.toml")

    def version_now(self) -> str:
        return answer_of(self.first).split()[1]

    def words(self) -> list[str]:
        """The words that it was told, without ticks and beats, each with the first word of its report."""
        blocks = [block.split("\n") for block in f"\n{self.blocks()}".split("\nword ")[1:]]
        reports = ("done", "rolled-back", "degraded", "nothing", "refused")
        told = [lines for lines in blocks if not lines[0].startswith(("tick ", "beat "))]
        ends = (next((line.split()[0] for line in lines if line.startswith(reports)), "") for lines in told)
        return [f"{lines[0]} {end}" for lines, end in zip(told, ends)]


class Fleet:
    """Five services, and the role that is run against them."""

    def __init__(self, room: Room):
        self.room, self.hosts, self.known = room, {}, dict[str, list[str]]()
        self.bin = room.path / "bin"
        for name in NAMES:
            folder = room.path / name
            folder.mkdir()
            self.hosts[name] = Host(room.prefork, str(folder), name)
        self.root = Root(room.path / "root") if room.package and not os.geteuid() else None
        if not self.root:
            self.bin.mkdir()
            (self.bin / "prefork").symlink_to(room.prefork)
            (self.bin / "prefork-ctl").symlink_to(BIN / "prefork-ctl")
        (room.path / "site.toml.j2").write_text(TEMPLATE)

    def begin(self) -> None:
        """The fourth starts no missing worker again: a reload of it could be left short."""
        for name, host in self.hosts.items():
            host.begin(retries=0 if name == "four" else 1)

    def inventory(self, own: dict[str, dict[str, Any]], **every: Any) -> pathlib.Path:
        """The hosts, with variables of one's own and of all."""
        every |= {
            "workers": WORKERS, "ansible_connection": "local", "ansible_python_interpreter": "/usr/bin/python3",
            "prefork_become": False, "prefork_template": str(self.room.path / "site.toml.j2"),
            "prefork_bin": str(self.root.bin if self.root else self.bin),
        }
        if self.root:
            every |= {
                "prefork_package": str(self.room.package), "prefork_package_place": str(self.room.path / "prefork.deb"),
                "prefork_dpkg": [*self.root.dpkg, "--skip-same-version"],
            }
        hosts = {
            name: {
                "prefork_folder": str(host.run), "prefork_config": str(host.config), "address": host.first,
                "program": host.program, **(own.get(name) or {}),
            }
            for name, host in self.hosts.items()
        }
        file = self.room.path / "hosts.json"
        file.write_text(json.dumps({"all": {"hosts": hosts, "vars": every}}))
        return file

    def played(self, book: str, inventory: pathlib.Path, *options: str) -> tuple[int, str]:
        """Runs a playbook: its status, and what it printed."""
        places = dict.fromkeys(PLACES, str(self.room.path / "ansible"))
        environment = {**os.environ, **places, "ANSIBLE_CONFIG": str(FLEET / "ansible.cfg"), "ANSIBLE_NOCOLOR": "1"}
        found = ran("ansible-playbook", "-i", inventory, *options, FLEET / book, cwd=FLEET, env=environment)
        return found.returncode, found.stdout

    def told(self) -> dict[str, list[str]]:
        """What each was told since this was asked last."""
        found = {name: host.words() for name, host in self.hosts.items()}
        new = {name: words[len(self.known.get(name, [])) :] for name, words in found.items()}
        self.known = found
        return new

    def check(self, what: str, holds: Any) -> None:
        self.room.check(what, holds)

    def check_told(self, what: str, wanted: dict[str, list[str]], versions: str) -> None:
        """What each was told, and of which version each is; those of the first version have its configuration."""
        told, now = self.told(), "".join(host.version_now() for host in self.hosts.values())
        self.check(f"{what}: they were told {told}", told == {name: wanted.get(name, []) for name in NAMES})
        self.check(f"{what}: they are of the versions {now}", now == versions)
        for (name, host), version in zip(self.hosts.items(), versions):
            has_new = f"\nworkers = {WORKERS}\n" in text_of(host.config)
            self.check(f"{what}: {name} has another configuration", host.is_as_before() if version == "1" else has_new)

    def end(self) -> None:
        """No request was lost on any of them."""
        for host in self.hosts.values():
            found = host.end_load()
            self.check(f"{host.name}: {found['failed']} requests failed: {found['failures']}", not found["failed"])
            self.check(f"{host.name}: the load was {found['answered']} requests", found["answered"] > FEWEST)
            host.stop()
            self.room.tally.add(host.tally)

    def close(self) -> None:
        for host in self.hosts.values():
            host.close()


def refuses(fleet: Fleet) -> None:
    """The fourth host's configuration would be left short by a single event: it is told nothing."""
    status, said = fleet.played("site.yml", fleet.inventory({}, version=2))
    fleet.check(f"the roll-out has status {status}: {said}", status != 0)
    fleet.check_told("refused", dict.fromkeys(NAMES[:3], ["HUP done"]), "22211")
    fleet.check(f"the reason isn't said: {said}", "four is not asked to HUP: explore has status 4" in said)
    fleet.check(f"the blocks aren't in the output: {said}", said.count("word HUP\n") == 3)


def goes_back(fleet: Fleet) -> None:
    """The three that are done go back by hand, the last one first."""
    status, said = fleet.played("back.yml", fleet.inventory({}))
    fleet.check(f"the way back has status {status}: {said}", status == 0)
    fleet.check_told("taken back", dict.fromkeys(NAMES[:3], ["HUP done"]), "11111")
    order = list(dict.fromkeys(re.findall(r"^changed: \[(\w+)\]", said, re.M)))
    fleet.check(f"they go back in the order {order}", order == ["three", "two", "one"])


def rolls_back(fleet: Fleet) -> None:
    """An upgrade of two at a time. The fourth host's application does not start: its old service runs. The third, which was
    told at the same time, and the first two are taken back. The fifth would be refused, and isn't asked."""
    host = fleet.hosts["four"]
    host.set_up()
    host.wants("HUP", 0, "done", 2)
    fleet.told()
    own: dict[str, dict[str, Any]] = {"four": {"program": FAILS}, "five": {"workers": -1}}
    inventory = fleet.inventory(own, version=3, prefork_word="USR2", prefork_take_back=True, prefork_pause=1)
    status, said = fleet.played("site.yml", inventory, "-e", "prefork_batch=2")
    fleet.check(f"the roll-out has status {status}: {said}", status != 0)
    wanted = {**dict.fromkeys(NAMES[:3], ["USR2 done", "HUP done"]), "four": ["USR2 rolled-back"]}
    fleet.check_told("rolled back", wanted, "11111")
    block = said.partition("four is not done: prefork-ctl USR2 has status 3")[2]
    fleet.check(f"its block isn't in the output: {said}", "word USR2\n" in block and " rolled-back cause " in block)
    fleet.check(f"the pauses are {said.count(PAUSE)}: {said}", said.count(PAUSE) == 2)


def does_not_answer(fleet: Fleet) -> None:
    """The second host is done, and what is asked of it does not answer: the roll-out ends. Nobody is taken back."""
    asked = {name: {"prefork_url": f"http://{host.first if name == 'one' else host.second}/"} for name, host in fleet.hosts.items()}
    status, said = fleet.played("site.yml", fleet.inventory(asked, version=4, prefork_url_tries=2))
    fleet.check(f"the roll-out has status {status}: {said}", status != 0)
    fleet.check_told("not answered", dict.fromkeys(NAMES[:2], ["HUP done"]), "44111")
    fleet.check(f"the reason isn't said: {said}", f"two is done, and {asked['two']['prefork_url']} does not answer" in said)


def rolls_out(room: Room) -> None:
    needs("ansible-playbook")
    fleet = Fleet(room)
    try:
        fleet.begin()
        fleet.told()
        refuses(fleet)
        goes_back(fleet)
        rolls_back(fleet)
        does_not_answer(fleet)
        fleet.end()
    finally:
        fleet.close()
