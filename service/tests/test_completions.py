"""What shells offer after words of `prefork`, `prefork-ctl` and `prefork-serve`: that of its place, and nothing after the last
one; and the options of each program."""
import pathlib
import re
import shlex
import shutil
import subprocess
import unittest
from typing import Any

SERVICE = pathlib.Path(__file__).resolve().parent.parent
COMPLETIONS, OF_MASTER = SERVICE / "completions", SERVICE.parent / "completions"
SECONDS = 60
WORDS = {"status", "top", "tick", "try", "plan", "explore", "certify", "go", "back", "reload", "upgrade", "log-rotate", "stop"}
SIGNALS = {"HUP", "USR1", "USR2", "WINCH", "TTIN", "TTOU", "QUIT", "INT", "TERM"}
STATES = {"serves", "changes", "short", "stopped"}
# What is typed before a word, and what is offered for it.
OFFERS = {
    "": WORDS | SIGNALS, "plan": SIGNALS, "explore": SIGNALS, "try": {"HUP"}, "USR2": {"attended"}, "plan USR2": {"attended"},
    "HUP": set(), "plan HUP": set(), "try HUP": set(), "USR2 attended": set(), "certify": set(), "status": set(),
}
OPTIONS = {"--wait": STATES, "--json": WORDS | SIGNALS, "--json plan": SIGNALS, "--folder x plan": SIGNALS}
BASH = "compopt() { :; }; source %s; COMP_WORDS=(%s ''); COMP_CWORD=$((${#COMP_WORDS[@]} - 1)); _prefork_service; printf '%%s\\n' \"${COMPREPLY[@]}\""
# (the words that are told apart by a place; what `_arguments` makes of options is zsh's own)
ZSH = """
_arguments() { :; }
_describe() { print -l ${(P)2} }
compadd() { print -l -- $@ }
offered() { . %s; words=(%s ''); CURRENT=$#words; _prefork_ctl_words }
offered
"""
# The file of zsh that has the options of a program.
ZSH_FILES = {"prefork-ctl": "_prefork-ctl", **dict.fromkeys(("prefork-serve", "prefork-load", "prefork-checkworker"), "_prefork-service")}
OPTION = re.compile(r"--[a-z][a-z0-9-]*")
# What the completion for bash has of a command of prefork; ci/documents compares it with its help.
COMMAND = re.compile(r"^ +(\w+)\) options='([^']*)'", re.M)
ATTENDED = "USR2 attended"


def said(shell: str, *words: str) -> list[str]:
    streams: dict[str, Any] = {"stdin": subprocess.DEVNULL, "capture_output": True, "text": True}
    found = subprocess.run([shell, *words], **streams, timeout=SECONDS, cwd=COMPLETIONS)
    return [line for line in found.stdout.splitlines() if line]


def by_bash(program: str, before: str) -> set[str]:
    file = shlex.quote(str(COMPLETIONS / "prefork-service.bash"))
    return set(said("bash", "-c", BASH % (file, f"{program} {before}")))


def by_fish(before: str) -> set[str]:
    file = shlex.quote(str(COMPLETIONS / "prefork-ctl.fish"))
    line = f"prefork-ctl {before} " if before else "prefork-ctl "
    return {offer.partition("\t")[0] for offer in said("fish", "--no-config", "-c", f"source {file}; complete -C {shlex.quote(line)}")}


def by_fish_of(program: str, typed: str) -> set[str]:
    """What fish offers for a line of any program."""
    file = (OF_MASTER if program == "prefork" else COMPLETIONS) / f"{program}.fish"
    code = f"source {shlex.quote(str(file))}; complete -C {shlex.quote(f'{program} {typed}')}"
    return {offer.partition("\t")[0].replace("\\ ", " ") for offer in said("fish", "--no-config", "-c", code)}


def options_of(program: str) -> set[str]:
    """The options that --help of a program of the service lists."""
    found = subprocess.run([SERVICE / "bin" / program, "--help"], capture_output=True, text=True, timeout=SECONDS).stdout
    return set(re.findall(rf"^ +(?:-\w, )?({OPTION.pattern})", found, re.M))


def zsh_options(text: str) -> set[str]:
    """The options of a call of `_arguments`."""
    return set(re.findall(rf"'\*?({OPTION.pattern})\[", text))


def zsh_part(text: str, name: str) -> str:
    """The branch of a `case` that has a name, or all where there is none."""
    found = re.search(rf"^ +{name}\)$(.*?)^ +;;$", text, re.M | re.S)
    return found[1] if found else text


def by_zsh(before: str) -> set[str]:
    file = shlex.quote(str(COMPLETIONS / "_prefork-ctl"))
    found = {offer.partition(":")[0].replace("\\", "") for offer in said("zsh", "-f", "-c", ZSH % (file, before))}
    return found - {"USR2 attended"}


class CompletionsTest(unittest.TestCase):
    def test_words_in_bash(self) -> None:
        for before, offers in (OFFERS | OPTIONS).items():
            with self.subTest(before):
                self.assertEqual(by_bash("prefork-ctl", before), offers)

    @unittest.skipUnless(shutil.which("fish"), "fish is not there")
    def test_words_in_fish(self) -> None:
        for before, offers in (OFFERS | OPTIONS).items():
            with self.subTest(before):
                self.assertEqual(by_fish(before), offers)

    @unittest.skipUnless(shutil.which("zsh"), "zsh is not there")
    def test_words_in_zsh(self) -> None:
        for before, offers in OFFERS.items():
            if not before.startswith("plan USR2"):
                with self.subTest(before):
                    self.assertEqual(by_zsh(before), offers)

    def test_options_in_zsh(self) -> None:
        """Each that --help lists, and no other."""
        for program, file in ZSH_FILES.items():
            with self.subTest(program):
                self.assertEqual(zsh_options(zsh_part((COMPLETIONS / file).read_text(), program)), options_of(program))

    @unittest.skipUnless(shutil.which("fish"), "fish is not there")
    def test_options_in_fish(self) -> None:
        for program in ZSH_FILES:
            with self.subTest(program):
                offers = by_fish_of(program, "--")
                self.assertEqual({offer for offer in offers if OPTION.fullmatch(offer)}, options_of(program))

    def commands(self) -> dict[str, set[str]]:
        """The options of each command of prefork, as the completion for bash has them."""
        found = {name: set(options.split()) for name, options in COMMAND.findall((OF_MASTER / "prefork.bash").read_text())}
        self.assertLessEqual({"enact", "plan", "explore", "certify", "check", "supervise", "adopt", "child", "explain"}, set(found))
        return found

    def test_options_of_the_master_in_zsh(self) -> None:
        text = (OF_MASTER / "_prefork").read_text()
        for command, options in self.commands().items():
            with self.subTest(command):
                self.assertEqual(zsh_options(zsh_part(text, command)), options)
                self.assertIn(f"    '{command}:", text)

    @unittest.skipUnless(shutil.which("fish"), "fish is not there")
    def test_the_master_in_fish(self) -> None:
        commands = self.commands()
        self.assertEqual(by_fish_of("prefork", ""), set(commands))
        for command, options in commands.items():
            with self.subTest(command):
                self.assertEqual(by_fish_of("prefork", f"{command} --"), options)
        words = SIGNALS | {ATTENDED}
        for typed, offers in {"enact ": words, "enact HUP ": words, "plan ": words, "plan HUP ": set(), "plan 'USR2 attended' ": set(),
                              "explore --events ": {"1", "2"}, "certify ": set()}.items():
            with self.subTest(typed):
                self.assertEqual(by_fish_of("prefork", typed), offers)

    @unittest.skipUnless(shutil.which("zsh"), "zsh is not there")
    def test_the_master_in_zsh(self) -> None:
        """What is called for a command, by its place. (what `_arguments` makes of it is zsh's own)"""
        code = """_arguments() { print -l -- $words[1] $@ }; _describe() { print -l -- ${(P)2} }; compadd() { print -l -- $@ }
            offered() { . %s; }; words=(%s ''); CURRENT=$#words; offered"""
        file = shlex.quote(str(OF_MASTER / "_prefork"))
        self.assertLessEqual({"enact:carry out words on a modelled kernel", "--version"}, set(said("zsh", "-f", "-c", code % (file, "prefork"))))
        for command, options in self.commands().items():
            told = said("zsh", "-f", "-c", code % (file, f"prefork {command}"))
            self.assertEqual((told[0], {line.partition("[")[0].lstrip("*") for line in told if "[" in line}), (command, options))

    @unittest.skipUnless(shutil.which("fish"), "fish is not there")
    def test_the_program_of_a_service_in_fish(self) -> None:
        self.assertIn("env", by_fish_of("prefork-serve", "site.toml -- en"))
        self.assertNotIn("env", by_fish_of("prefork-serve", "en"))
        self.assertEqual({offer for offer in by_fish_of("prefork-serve", "site.toml -- env --") if offer == "--folder"}, set())
        self.assertEqual(by_fish_of("prefork-serve", "--access-form "), {"combined", "json"})

    @unittest.skipUnless(shutil.which("zsh"), "zsh is not there")
    def test_the_program_of_a_service_in_zsh(self) -> None:
        """After -- there is a program and its arguments, at their places."""
        code = """_arguments() { _prefork_serve_rest }; _files() { print files }; _normal() { print -l -- $CURRENT $words }
            offered() { . %s; }; service=prefork-serve; words=(prefork-serve %s ''); CURRENT=$#words; offered"""
        file = shlex.quote(str(COMPLETIONS / "_prefork-service"))
        for typed, told in (("", ["files"]), ("site.toml --", ["1"]), ("site.toml -- env", ["2", "env"]), ("--listen a -- env -i", ["3", "env", "-i"])):
            self.assertEqual(said("zsh", "-f", "-c", code % (file, typed)), told)

    def test_the_program_of_a_service_in_bash(self) -> None:
        self.assertIn("env", by_bash("prefork-serve", "site.toml --"))
        self.assertNotIn("env", by_bash("prefork-serve", "site.toml -- env"))
        self.assertIn("--version", said("bash", "-c", BASH.replace("''", "--v") % (shlex.quote(str(COMPLETIONS / "prefork-service.bash")), "prefork-serve")))


if __name__ == "__main__":
    unittest.main()
