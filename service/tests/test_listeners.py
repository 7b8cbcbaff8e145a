"""The options of listeners: how they are read, what the system refuses, and what they do to sockets."""
import json
import os
import pathlib
import selectors
import socket
import tempfile
import types
import unittest
from typing import Any
from unittest import mock

from kit import free_address, until
from prefork_service import listeners, socket_tables
from prefork_service.configuration import Configuration
from prefork_service.keeping import KeeperProcess
from prefork_service.opening import DEFER_SECONDS, Wanted, listening
from prefork_service.reader import SiteFile
from prefork_service.recipes import Told
from prefork_service.socket_tables import faults_of_sockets, options_in

# In the TCP_INFO of a listening socket: the length of its queue.
LENGTH_AT, INFO_BYTES = 28, 104


def length_of(one: socket.socket) -> int:
    return int.from_bytes(one.getsockopt(socket.IPPROTO_TCP, socket.TCP_INFO, INFO_BYTES)[LENGTH_AT : LENGTH_AT + 4], "little")


def deferral_of(one: socket.socket) -> int:
    return one.getsockopt(socket.IPPROTO_TCP, socket.TCP_DEFER_ACCEPT)


def text_of(one: Wanted) -> str:
    """The options as a configuration has them."""
    told = {key: f'"{value:04o}"' if key == "mode" else f'"{value}"' if key in ("owner", "group") else json.dumps(value) for key, value in one.told().items()}
    return "".join(f"{key} = {value}\n" for key, value in told.items())


def system_most() -> int:
    return int(pathlib.Path("/proc/sys/net/core/somaxconn").read_text())


def folder_in(place: pathlib.Path) -> Any:
    """As much of the folder of a service as is used here."""
    return types.SimpleNamespace(path=place, keeper=place / "keeper.sock", lock=os.open(place, os.O_RDONLY))


class ReadingTest(unittest.TestCase):
    def test_each_key_is_read(self) -> None:
        text = b'[sockets."1.2.3.4:80"]\nbacklog = 9\ndefer_accept = false\n[sockets."/run/a.sock"]\nmode = "0660"\ngroup = "7"\nowner = "root"\n'
        self.assertEqual(options_in(text), {"1.2.3.4:80": Wanted(9, False), "/run/a.sock": Wanted(owner=0, group=7, mode=0o660)})
        self.assertEqual(options_in(b'sockets = { "[::1]:80" = { defer_accept = true } }'), {"[::1]:80": Wanted(defer_accept=True)})

    def test_what_the_master_refuses_is_nothing(self) -> None:
        for text in (b"", b"sockets = 1\n", b"no TOML", b'[sockets]\n"1.2.3.4:80" = 1\n'):
            self.assertEqual(options_in(text), {})
        text = b'[sockets."/a"]\nbacklog = 0\nmode = "9"\ndefer_accept = 1\ngroup = 7\nowner = "4294967295"\n'
        self.assertEqual(options_in(text), {"/a": Wanted()})

    def test_who_is_unknown_is_refused_with_the_line(self) -> None:
        text = b'listeners = ["/a"]\nworkers = 1\ntimeout = 9\n[sockets."/a"]\ngroup = "no-such-group"\nowner = "nobody-at-all"\n'
        with tempfile.TemporaryDirectory(prefix="listeners-") as room:
            config = pathlib.Path(room) / "site.toml"
            config.write_bytes(text)
            site = SiteFile(config, Told())
            self.assertEqual(site.faults(), [
                f'{config}, line 5: sockets."/a".group is "no-such-group", which is no group of this system',
                f'{config}, line 6: sockets."/a".owner is "nobody-at-all", which is no user of this system',
            ])
            self.assertEqual((site.refusal() or ("",))[0], "refused socket-options")
            config.write_bytes(text.replace(b"no-such-group", b"0") + b"[service]\nthread = 1\n")
            site = SiteFile(config, Told())
            self.assertEqual((site.refusal() or ("",))[0], "refused service-keys")
            self.assertEqual(len(site.faults()), 2)

    def test_a_user_without_rights_gives_to_its_own_groups_alone(self) -> None:
        text = f'[sockets."/a"]\ngroup = "{max(os.getgroups() + [os.getegid()]) + 1}"\nowner = "{os.geteuid() + 1}"\n'.encode()
        with mock.patch.object(socket_tables, "may_give", lambda: False):
            self.assertEqual([fault.path[2] for fault in faults_of_sockets(text)], ["group", "owner"])
            own = f'[sockets."/a"]\ngroup = "{os.getegid()}"\nowner = "{os.geteuid()}"\n'.encode()
            self.assertEqual(faults_of_sockets(own), [])
        with mock.patch.object(socket_tables, "may_give", lambda: True):
            self.assertEqual(faults_of_sockets(text), [])

    def test_what_is_said_goes_over_what_is_usual(self) -> None:
        usual = Wanted(backlog=1, defer_accept=True, owner=2, group=3, mode=4)
        wanted = Wanted(backlog=1, defer_accept=False, owner=2, group=3, mode=0)
        self.assertEqual(Wanted(defer_accept=False, mode=0).over(usual), wanted)
        self.assertEqual(Wanted(defer_accept=False).told(), {"defer_accept": False})


class OpeningTest(unittest.TestCase):
    def test_a_listener_has_its_queue_and_holds_back(self) -> None:
        with listening("127.0.0.1:0", Wanted(backlog=7, defer_accept=True)) as one, listening("127.0.0.1:0") as usual:
            self.assertEqual((length_of(one), deferral_of(one) >= DEFER_SECONDS), (7, True))
            self.assertEqual((length_of(usual), deferral_of(usual)), (system_most(), 0))

    def test_a_file_has_its_owner_group_and_mode(self) -> None:
        with tempfile.TemporaryDirectory(prefix="listeners-") as room:
            owner, group = (12, 34) if not os.geteuid() else (os.geteuid(), os.getegid())
            path = pathlib.Path(room) / "a.sock"
            with listening(str(path), Wanted(owner=owner, group=group, mode=0o604)):
                found = path.stat()
                self.assertEqual((found.st_uid, found.st_gid, found.st_mode & 0o7777), (owner, group, 0o604))

    def test_a_file_that_can_not_be_given_is_removed(self) -> None:
        with tempfile.TemporaryDirectory(prefix="listeners-") as room, mock.patch("os.chown", side_effect=PermissionError(1, "no")):
            with self.assertRaises(PermissionError):
                listening(f"{room}/a.sock", Wanted(group=1))
            self.assertEqual(os.listdir(room), [])


class KeptTest(unittest.TestCase):
    """The sockets of a keeper that runs."""

    def setUp(self) -> None:
        room = tempfile.TemporaryDirectory(prefix="listeners-")
        self.addCleanup(room.cleanup)
        self.room, self.events = pathlib.Path(room.name), selectors.DefaultSelector()
        self.folder = folder_in(self.room)
        self.addCleanup(os.close, self.folder.lock)
        keeper = mock.patch.dict(os.environ, PREFORK_KEEPER=str(self.folder.keeper))
        keeper.start()
        self.addCleanup(keeper.stop)
        self.path, self.new, self.tcp = str(self.room / "a.sock"), str(self.room / "new.sock"), free_address()

    def begin(self, *options: str, **wanted: Wanted) -> KeeperProcess:
        keeping = KeeperProcess(self.events, self.folder, [*options], {}, {})
        self.addCleanup(keeping.end)
        self.seen_to(keeping).begin(self.named(**wanted))
        keeping.hold([self.path, self.tcp])
        self.hears(keeping, self.path, self.tcp)
        return keeping

    def seen_to(self, keeping: KeeperProcess) -> Any:
        return keeping.wanted(self.named(path=Wanted()))

    def named(self, **wanted: Wanted) -> Configuration:
        """A configuration with these options of the two addresses, and of a third one."""
        places = {"path": self.path, "tcp": self.tcp, "new": self.new}
        text = "".join(f"[sockets.{json.dumps(places[name])}]\n{text_of(one)}" for name, one in wanted.items()).encode()
        return Configuration(listeners={address: one.told() for address, one in options_in(text).items()})

    def hears(self, keeping: KeeperProcess, *addresses: str) -> None:
        def all_held() -> bool:
            for key, _ in self.events.select(0.05):
                key.data(key.fileobj)
            return set(addresses) <= set(keeping.held)
        self.assertTrue(until(all_held))

    def file(self, path: str = "") -> tuple[int, int, int]:
        found = os.stat(path or self.path)
        return found.st_uid, found.st_gid, found.st_mode & 0o7777

    def test_a_start_opens_with_options(self) -> None:
        keeping = self.begin(path=Wanted(mode=0o600), tcp=Wanted(backlog=5, defer_accept=True))
        self.assertEqual((self.file()[2], length_of(keeping.held[self.tcp])), (0o600, 5))
        self.assertTrue(deferral_of(keeping.held[self.tcp]))

    def test_options_go_over_those_of_all_sockets(self) -> None:
        keeping = self.begin("--defer-accept", "--socket-mode", "640", path=Wanted(mode=0o606), tcp=Wanted(defer_accept=False))
        self.assertEqual((self.file()[2], deferral_of(keeping.held[self.tcp])), (0o606, 0))
        self.seen_to(keeping).settle(Configuration())
        self.assertEqual(self.file()[2], 0o640)
        self.assertTrue(deferral_of(keeping.held[self.tcp]))

    def test_options_change_on_open_sockets_and_go_back_to_what_is_usual(self) -> None:
        keeping = self.begin()
        usual = self.file()
        inodes = {address: os.fstat(one.fileno()).st_ino for address, one in keeping.held.items()}
        self.seen_to(keeping).settle(self.named(path=Wanted(mode=0o622), tcp=Wanted(backlog=5, defer_accept=True)))
        self.assertEqual((self.file(), length_of(keeping.held[self.tcp])), ((*usual[:2], 0o622), 5))
        self.assertTrue(deferral_of(keeping.held[self.tcp]))
        self.seen_to(keeping).settle(Configuration())
        self.assertEqual((self.file(), length_of(keeping.held[self.tcp])), (usual, system_most()))
        self.assertFalse(deferral_of(keeping.held[self.tcp]))
        self.assertEqual(inodes, {address: os.fstat(one.fileno()).st_ino for address, one in keeping.held.items()})
        self.assertEqual(self.seen_to(keeping).take_notes(), [])

    @unittest.skipIf(os.geteuid(), "root alone gives files away")
    def test_owner_and_group_change_and_go_back(self) -> None:
        keeping = self.begin()
        usual = self.file()
        self.seen_to(keeping).settle(self.named(path=Wanted(owner=12, group=34)))
        self.assertEqual(self.file(), (12, 34, usual[2]))
        self.seen_to(keeping).settle(Configuration())
        self.assertEqual(self.file(), usual)

    def test_what_is_proposed_counts_for_what_is_opened(self) -> None:
        """An address that is open already has the options of what runs until the word is done."""
        keeping = self.begin(path=Wanted(mode=0o600))
        self.seen_to(keeping).propose(self.named(path=Wanted(mode=0o644), new=Wanted(mode=0o604)))
        keeping.hold([self.new])
        self.hears(keeping, self.new)
        self.assertEqual((self.file()[2], self.file(self.new)[2]), (0o600, 0o604))

    def test_what_was_proposed_and_is_rolled_back_counts_no_more(self) -> None:
        keeping = self.begin()
        self.seen_to(keeping).propose(self.named(new=Wanted(mode=0o604)))
        self.seen_to(keeping).settle(Configuration())
        keeping.hold([self.new])
        self.hears(keeping, self.new)
        self.assertEqual(self.file(self.new)[2], self.file()[2])

    def test_another_keeper_knows_the_options(self) -> None:
        keeping = self.begin()
        self.seen_to(keeping).propose(self.named(new=Wanted(mode=0o604)))
        keeping.bury()
        keeping.begin()
        keeping.hold([self.new])
        self.hears(keeping, self.new)
        self.assertEqual(self.file(self.new)[2], 0o604)

    def test_the_queue_of_a_program_that_listens_itself_is_set_again(self) -> None:
        keeping = self.begin(tcp=Wanted(backlog=50))
        one = keeping.held[self.tcp]
        one.listen(3)
        self.seen_to(keeping).tend()
        self.seen_to(keeping).kept -= listeners.KEEP_SECONDS
        self.seen_to(keeping).tend()
        self.assertEqual(length_of(one), 50)

    def test_another_file_at_the_path_is_not_changed(self) -> None:
        keeping = self.begin()
        os.rename(self.path, f"{self.path}.old")
        pathlib.Path(self.path).write_text("somebody's")
        mode = self.file()
        self.seen_to(keeping).settle(self.named(path=Wanted(mode=0o600)))
        self.assertEqual(self.file(), mode)
        self.assertEqual(self.seen_to(keeping).take_notes(), [f"{self.path}: the path leads to the socket no more: the next HUP opens it anew, with its options"])

    def test_what_can_not_be_changed_is_said(self) -> None:
        keeping = self.begin()
        with mock.patch("os.chmod", side_effect=PermissionError(1, "Operation not permitted")):
            self.seen_to(keeping).settle(self.named(path=Wanted(mode=0o600)))
        said = [f"{self.path}: mode stays as it is: Operation not permitted. A new address has it"]
        self.assertEqual((self.seen_to(keeping).take_notes(), self.seen_to(keeping).take_notes()), (said, []))

    def test_a_socket_of_systemd_takes_what_is_named(self) -> None:
        stored = listening(self.tcp, Wanted(backlog=9))
        keeping = KeeperProcess(self.events, self.folder, [], {self.tcp: stored}, {})
        self.addCleanup(keeping.end)
        self.seen_to(keeping).begin(self.named(tcp=Wanted(defer_accept=True)))
        self.assertEqual((length_of(stored), deferral_of(stored) >= DEFER_SECONDS), (9, True))

    def test_a_socket_of_a_killed_service_has_nothing_of_its_configuration(self) -> None:
        inherited = {self.tcp: listening(self.tcp, Wanted(backlog=9, defer_accept=True)), self.path: listening(self.path, Wanted(mode=0o600))}
        keeping: Any = KeeperProcess(self.events, self.folder, ["--socket-mode", "640"], {}, inherited)
        self.addCleanup(keeping.end)
        self.assertIsNotNone(keeping.wanted(Configuration()))
        keeping.listeners.begin(self.named(tcp=Wanted(backlog=5)))
        self.assertEqual((length_of(inherited[self.tcp]), deferral_of(inherited[self.tcp]), self.file()[2]), (5, 0, 0o640))

    def test_without_options_nobody_sees_to_them(self) -> None:
        self.assertIsNone(self.begin_alone().wanted(Configuration()))

    def begin_alone(self) -> KeeperProcess:
        keeping = KeeperProcess(self.events, self.folder, [], {}, {})
        self.addCleanup(keeping.end)
        return keeping


if __name__ == "__main__":
    unittest.main()
