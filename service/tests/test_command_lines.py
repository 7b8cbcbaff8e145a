"""Command lines of guides and man pages, from before a configuration could say what runs: each starts workers by the same
words as it did then."""
import shlex
import unittest

from kit import OUT, SERVICE, built
from prefork_service.options import arguments, told_of
from prefork_service.recipes import setup_of
from test_wsgi import PYTHON

CONFIG = b'listeners = ["127.0.0.1:1"]\nworkers = 2\n'
# As they were typed, and what was made of them.
LINES = (
    ("a.toml -- gunicorn -w 1 -k gthread --threads 8 --log-level warning hello:app",
     "ADAPTER -- gunicorn -w 1 -k gthread --threads 8 --log-level warning hello:app"),
    ("--defer-accept a.toml -- puma --bind-to-activated-sockets only -t 8:8 -e production hello.ru",
     "ADAPTER -- puma --bind-to-activated-sockets only -t 8:8 -e production hello.ru"),
    ("--blocking --stop QUIT --no-listen-fds --env 'FPM_SOCKETS={fpm}' a.toml -- ./start-fpm {address} {room}",
     "ADAPTER --stop QUIT --env 'FPM_SOCKETS={fpm}' --no-listen-fds --blocking -- ./start-fpm '{address}' '{room}'"),
    ("--no-listen-fds a.toml -- ./start-uwsgi {fd}",
     "ADAPTER --no-listen-fds -- ./start-uwsgi '{fd}'"),
    ("--stop QUIT --no-listen-fds --env 'NGINX={fds}' a.toml -- ./start-nginx {address} {room}",
     "ADAPTER --stop QUIT --env 'NGINX={fds}' --no-listen-fds -- ./start-nginx '{address}' '{room}'"),
    ("--stop QUIT --ready-within 15 a.toml -- unicorn -E none -l {address} hello.ru",
     "ADAPTER --ready-within 15 --stop QUIT -- unicorn -E none -l '{address}' hello.ru"),
    ("--stop USR1 --usr1 HUP a.toml -- haproxy -db -f haproxy.cfg",
     "ADAPTER --stop USR1 --usr1 HUP -- haproxy -db -f haproxy.cfg"),
    ("a.toml -- uvicorn --fd {fd} --log-level warning hello:app",
     "ADAPTER -- uvicorn --fd '{fd}' --log-level warning hello:app"),
    ("--ready notify --finish 60 --env A=1 --env B= a.toml -- node hello.js",
     "ADAPTER --finish 60 --ready notify --env A=1 --env B= -- node hello.js"),
    ("--ready probe /alive --probe-within 2 a.toml -- ./hello",
     "ADAPTER --ready probe --probe /alive --probe-within 2 -- ./hello"),
    ("--probe / --probe-limit 8 a.toml -- python3 server.py {fd}",
     "ADAPTER --probe / --probe-limit 8 -- python3 server.py '{fd}'"),
    ("--chdir / a.toml -- true",
     "ADAPTER -- true"),
    ("--python PY --wsgi hello:app a.toml",
     "PY WSGI hello:app"),
    ("--python PY --wsgi app:application --trusted-proxy 127.0.0.1 --ready probe / --threads 8 --timeout 20 --keep 30 a.toml",
     "PY WSGI --threads 8 --timeout 20 --keep 30 --trusted-proxy 127.0.0.1 --probe / app:application"),
)


class CommandLineTest(unittest.TestCase):
    @classmethod
    def setUpClass(cls) -> None:
        built()

    def test_each_starts_the_same_worker(self) -> None:
        names = {"ADAPTER": str(OUT / "prefork-activate"), "WSGI": str(SERVICE / "bin" / "prefork-wsgi"), "PY": PYTHON or ""}
        for typed, wanted in LINES:
            if "PY" in typed.split() and not PYTHON:
                continue
            found = setup_of(CONFIG, told_of(arguments([names.get(word, word) for word in shlex.split(typed)])))
            self.assertEqual(found.faults, [], typed)
            [recipe] = found.recipes
            self.assertEqual([*recipe.words], [names.get(word, word) for word in shlex.split(wanted)], typed)
            # (nothing that a configuration of that time could not say)
            self.assertEqual((recipe.name, recipe.folder, recipe.secrets, recipe.nice, recipe.limits), ("", "", (), None, ()), typed)


if __name__ == "__main__":
    unittest.main()
