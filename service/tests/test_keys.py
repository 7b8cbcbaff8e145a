"""The keys of the table `service`: what each refuses, in which line, and what it says to write."""
import tomllib
import unittest
from typing import Any
from unittest import mock

from prefork_service.keys import KEYS, LIMITS, LISTENER, NO_GROUP, faults_of_keys
from prefork_service.toml_lines import line_of, masked
from prefork_service.recipes import Told, setup_of
from prefork_service.settings import Settings

SERVED = 'listeners = ["127.0.0.1:1"]\nworkers = 2\n'
PROGRAM, WSGI = 'program = ["p", "x"]', 'wsgi = "m:a"'
# Of each key values that are of another kind, and values of its kind out of its range; as TOML.
WRONG: dict[str, tuple[list[str], list[str]]] = {
    "program": (['"gunicorn x"', "3", "[1]"], ["[]", '[""]', '["a\\u0000"]']),
    "wsgi": (["3", '["m:a"]'], ['""', '"a b"', '"a:b:c"']),
    "preload": (['"yes"', "1"], []),
    "python": (["3", "[]"], ['""']),
    "environment": (['"A=b"', '["A=b"]'], []),
    "environment_files": (['"/etc/env"', "[1]"], ["[]", '[""]']),
    "folder": (["3", "[]"], ['""']),
    "ready": (["3", "true"], ['"soon"', '""']),
    "ready_within": (['"30"', "true", "[1]"], ["0", "-1", "0.0", "86401", "nan"]),
    "finish": (['"30"', "false"], ["0", "1e9", "inf"]),
    "probe": (["3", "true"], ['"alive"', '""', '"/a b"']),
    "probe_within": (['"5"'], ["0", "-0.5"]),
    "probe_limit": (['"5"'], ["0", "90000"]),
    "stop": (["15", "true"], ['"KILL"', '""', '"term"']),
    "usr1": (["10"], ['"STOP"']),
    "listen_fds": (['"no"', "0"], []),
    "blocking": (['"yes"', "1"], []),
    "threads": (['"8"', "4.0", "true"], ["0", "-1", "1025"]),
    "timeout": (['"30"', "true"], ["0", "86401"]),
    "request_timeout": (['"30"', "true"], ["0", "-1", "86401"]),
    "keep": (['"75"', "7.5"], ["0", "86401"]),
    "trusted_proxy": (['"10.0.0.1"', "[1]"], ['["10.0.0.1/8"]', '["proxy"]']),
    "access_log": (["3", "[]"], ['""']),
    "access_form": (["3", "true"], ['"common"']),
    "warm": (['"/"', "[1]"], ['["x"]', '[""]']),
    "after_fork": (['"m:f"', "[1]"], ['["a b"]']),
    "after_load": (['"m:f"', "[1]"], ['[""]']),
    "user": (["33", "[]"], ['""', '"no-such-user"']),
    "group": (["33", "[]"], ['""', '"no-such-group"']),
    "nice": (['"5"', "1.5", "true"], ["20", "-21"]),
    "hard_memory": (["true", "1.5", '["1G"]'], ["0", "1000", '""', '"512"', '"1.5X"', '"-1G"', '"512MB"', '"1T1"', '"9999T"']),
    "limits": (['"nofile=4"', "4"], []),
    "answer_within": (['"60"', "1.5", "true"], ["-1", "536870912"]),
    "ask": (['"./look"', "3", "[1]"], ["[]", '[""]', '["a\\u0000"]']),
    "ask_after": (['"10"', "true"], ["-1", "86401", "nan"]),
    "ask_within": (['"60"', "false"], ["0", "-0.5", "86401"]),
    "hooks": (['"x"', '["x"]'], []),
    "groups": (['"x"', "[1]"], []),
}


def faults(text: str, told: Told = Told()) -> list[str]:
    """What is wrong with a configuration, each with its line."""
    found = setup_of(text.encode(), told)
    assert not (found.faults and found.recipes)
    return [f"{line_of(text, fault.path)}: {fault.text}" for fault in found.faults]


def kind_for(name: str) -> str:
    """What workers run that have a key."""
    return PROGRAM if name == "wsgi" or not KEYS[name].runs or KEYS[name].runs >= KEYS["stop"].runs else WSGI


class KeysTest(unittest.TestCase):
    def test_each_key_refuses_what_is_of_another_kind_and_out_of_range(self) -> None:
        self.assertEqual(set(WRONG), set(KEYS))
        for name, (kinds, ranges) in WRONG.items():
            own = "" if name in ("program", "wsgi") else f"{kind_for(name)}\n"
            for value in [*kinds, *ranges]:
                text = f"{SERVED}\n[service] # the service\n{own}{name} = {value}\n"
                found = faults(text)
                self.assertEqual(len(found), 1, (text, found))
                self.assertTrue(found[0].startswith(f"{6 if own else 5}: service.{name} "), found)
                if value not in ('"no-such-user"', '"no-such-group"'):
                    self.assertIn(f": {KEYS[name].allowed} is allowed", found[0])

    def test_an_unknown_key_is_named_with_the_nearest(self) -> None:
        for name in (name for name in KEYS if len(name) > 4):
            wrong = f"{name[:3]}x{name[3:]}"
            found = faults(f"{SERVED}[service]\n{PROGRAM}\n{wrong} = 1\n")
            self.assertEqual(found, [f"5: service.{wrong} is no key: the nearest known key is {name}"])
        far = faults(f"{SERVED}[service]\n{PROGRAM}\nqqq = 1\n")
        self.assertIn("known keys are program, wsgi, ", far[0])

    def test_a_key_that_is_given_twice_is_no_toml(self) -> None:
        for name in KEYS:
            text = f"{SERVED}[service]\n{name} = 1\n{name} = 1\n"
            with self.assertRaisesRegex(tomllib.TOMLDecodeError, "line 5"):
                tomllib.loads(text)
            self.assertEqual(setup_of(text.encode(), Told()).recipes, ())

    def test_all_that_is_wrong_is_told_at_once(self) -> None:
        text = f'{SERVED}[service]\nthread = 1\nstop = 5\nnice = 99\n[service.environment]\n"A B" = "x"\nC = 1\nLISTEN_FDS = "3"\nD = {{ file = 1 }}\n'
        found = faults(text)
        self.assertEqual([line.partition(" ")[0] for line in found], ["4:", "5:", "6:", "8:", "9:", "10:", "11:"])

    def test_values_of_variables_are_not_shown(self) -> None:
        for value in ("31337", "true", '{ fil = "hunter2" }', '["hunter2"]', "2026-01-01"):
            found = faults(f"{SERVED}[service]\n{PROGRAM}\nenvironment = {{ KEY = {value} }}\n")
            self.assertEqual(len(found), 1)
            for secret in ("31337", "true", "hunter2", "2026"):
                self.assertNotIn(secret, found[0])
        self.assertNotIn("hunter2", faults(f'{SERVED}[service]\n{PROGRAM}\nenvironment = "A=hunter2"\n')[0])

    def test_what_is_within_limits_and_hooks(self) -> None:
        for text, wanted in (
            ("limits = { nofil = 1 }", "service.limits.nofil is no limit: the nearest known key is nofile"),
            ("limits = { nofile = -1 }", "service.limits.nofile is -1: a whole number from 0 on"),
            ("limits = { nofile = [5, 4] }", "service.limits.nofile is a list: "),
            ('limits = { nofile = "many" }', 'service.limits.nofile is "many": '),
            ("hooks = { on-dne = \"x\" }", "service.hooks.on-dne is no event: the nearest known key is on-done"),
            ("hooks = { on-done = 3 }", "service.hooks.on-done is 3: the path of a program is allowed"),
            ("hooks = { on-done = \"/no/such\" }", "service.hooks.on-done can't be started: /no/such: No such file"),
        ):
            found = faults(f"{SERVED}[service]\n{PROGRAM}\n{text}\n")
            self.assertEqual(len(found), 1, found)
            self.assertTrue(found[0].startswith(f"5: {wanted}"), found)
        every = ", ".join(f"{name} = [1, 2]" for name in LIMITS)
        with mock.patch("os.geteuid", return_value=0):
            self.assertEqual(faults(f"{SERVED}[service]\n{PROGRAM}\nlimits = {{ {every}, core = \"unlimited\" }}\n".replace("core = [1, 2], ", "")), [])

    def test_keys_that_do_not_go_together(self) -> None:
        for text, wanted in (
            (f"{PROGRAM}\n{WSGI}", "5: service has program and wsgi: one of them is allowed"),
            (f'{WSGI}\nstop = "TERM"', "5: service.stop is a key of a program, and the workers run wsgi: remove it"),
            (f"{PROGRAM}\nthreads = 4", "5: service.threads is a key of wsgi or wsgi with preload, and the workers run a program: remove it"),
            (f'{WSGI}\nready = "notify"', '5: service.ready is "notify": of wsgi "probe" alone is allowed'),
            (f'{PROGRAM}\nready = "probe"', '5: service.ready is "probe": a key probe is wanted with it'),
            (f'{WSGI}\nprobe = "/"', '5: service.probe of wsgi is asked once'),
            (f'{WSGI}\npreload = true\nuser = "root"', "6: service.user is a key of a program or wsgi, and the workers run wsgi with preload"),
            (f"{PROGRAM}\nask_after = 5", "5: service.ask_after is of a command that answers questions, and there is none"),
            (f'{PROGRAM}\nask = ["/no/such"]\nask_within = 5', "5: service.ask can't be started: /no/such: No such file"),
            (f'{PROGRAM}\nready = "notify"\nuser = "root"', "6: service.user: another user reaches no file"),
        ):
            found = faults(f"{SERVED}[service]\n{text}\n")
            self.assertEqual(len(found), 1, found)
            self.assertTrue(found[0].startswith(wanted), found)
        self.assertEqual(faults(f'command = ["c"]\n{SERVED}[service]\n{PROGRAM}\n'), ["5: service.program is beside command: one of them is allowed"])
        self.assertEqual(faults(f'command = ["c"]\n{SERVED}[service]\nnice = 3\nfolder = "/"\n'), [])

    def test_what_only_root_may(self) -> None:
        # (the gate runs at a niceness of its own)
        of_user = mock.patch.multiple("os", geteuid=lambda: 4711, getpriority=lambda *_: 0)
        with of_user, mock.patch("resource.getrlimit", return_value=(10, 20)):
            for text, wanted in (
                ('user = "root"', "only root can start workers as another user"), ('group = "root"', "only root can start workers with another group"),
                ("nice = -5", "as this user a number from "), ("limits = { nofile = [5, 21] }", "is more than this user may have: at most 20 is allowed"),
            ):
                found = faults(f"{SERVED}[service]\n{PROGRAM}\n{text}\n")
                self.assertEqual(len(found), 1, text)
                self.assertIn(wanted, found[0])
            self.assertEqual(faults(f"{SERVED}[service]\n{PROGRAM}\nlimits = {{ nofile = [5, 20] }}\n"), [])

    def test_groups(self) -> None:
        groups = '[[groups]]\nlisteners = ["/a", "/b"]\nworkers = 2\n[[groups]]\nlisteners = ["/c"]\n[service]\nprogram = ["p"]\n'
        for text, wanted in (
            ('[service.groups.x]\nnice = 3\n', '8: service.groups.x has no key listener'),
            ('[service.groups.x]\nlistener = "/d"\n', '9: service.groups.x.listener is "/d", which no group has. Addresses are /a, /b, /c'),
            ('[service.groups.x]\nlistener = "/a"\n[service.groups.y]\nlistener = "/b"\n', "11: service.groups.y and x are the same group"),
            ('[service.groups.x]\nlistener = "/a"\nhooks = {}\n', "10: service.groups.x.hooks is for the whole service, and not for a group"),
            ('[service.groups.x]\nlistener = 3\n', "9: service.groups.x.listener is 3: an address of a group is allowed"),
            ('[service.groups.x]\nlistner = "/a"\nlistener = "/a"\n', "9: service.groups.x.listner is no key: the nearest known key is listener"),
            ('[service.groups.x]\nlistener = "/c"\nthreads = 2\n', "10: service.groups.x.threads is a key of wsgi"),
            ('[service.groups.x]\nlistener = "/c"\nwsgi = "m"\nprogram = ["q"]\n', "10: service.groups.x has program and wsgi"),
        ):
            found = faults(groups + text)
            self.assertEqual(len(found), 1, found)
            self.assertTrue(found[0].startswith(wanted), found)
        for key in KEYS.values():
            is_of_group = not faults_of_keys({LISTENER: "/a", key.name: None}, ("service", "groups", "x"))[0].text.endswith("not for a group")
            self.assertEqual(is_of_group, key.runs != NO_GROUP, key.name)

    def test_each_key_has_a_setting(self) -> None:
        names: set[str] = set(Settings.__dataclass_fields__)
        self.assertEqual(names | {key.name for key in KEYS.values() if not key.runs}, set(KEYS))


class LinesTest(unittest.TestCase):
    TEXT = """listeners = ["a"]
service.nice = 3 # not this: nice = 4
[service.environment]
"A B" = 1
'C' = { file = "x" }
[[groups]]
x = 1
[service.groups."127.0.0.1:1"]
limits = { nofile = 1, core = 2 }
program = [
  "a",
  "nice = 3",
]
folder="x"
"""

    def test_the_line_of_a_key(self) -> None:
        group = ("service", "groups", "127.0.0.1:1")
        for path, wanted in (
            (("listeners",), 1), (("service", "nice"), 2), (("service", "environment"), 3), (("service", "environment", "A B"), 4),
            (("service", "environment", "C", "file"), 5), (group, 8), ((*group, "limits", "core"), 9), ((*group, "program"), 10),
            ((*group, "folder"), 14), ((*group, "none"), 8), (("other",), 0), (("service", "other"), 0),
        ):
            self.assertEqual(line_of(self.TEXT, path), wanted, path)

    def test_what_a_refusal_shows_of_the_table_is_hidden(self) -> None:
        text = 'workers = 1\nservice.environment.A = "hunter2\n[service.environment]\nKEY = "hunter2\n  "hunter2",\n[other]\nKEY = 3\n'

        def shown(number: int) -> str:
            line = text.splitlines()[number - 1]
            found: Any = masked(f"prefork: config C1\n  --from site.toml, line {number}: {line}\n  C1: not TOML\n", text)
            return found.splitlines()[1].partition(f"line {number}: ")[2]

        self.assertEqual([shown(number) for number in range(1, 8)], [
            "workers = 1", "service.environment.A = ..", "[service.environment]", "KEY = ..", "..", "[other]", "KEY = 3",
        ])


if __name__ == "__main__":
    unittest.main()
