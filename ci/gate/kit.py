"""What the gate's scripts take from the toolchain's own command `rt` and from its list of a crate's functions.

The toolchain promises none of it: a newer kit can change these names, and then this file alone has to follow.
"""
import copy
import importlib.machinery
import os
import re
import shutil
import sys
import tempfile
import threading
import types

sys.dont_write_bytecode = True
HERE = os.path.dirname(os.path.realpath(shutil.which("rt") or sys.exit("rt is not on the path")))


def loaded(name):
    module = types.ModuleType(name.replace("-", "_"))
    module.__file__ = f"{HERE}/{name}"
    importlib.machinery.SourceFileLoader(module.__name__, module.__file__).exec_module(module)
    return module


rt = loaded("rt")
bodies = loaded("rt-plant-bodies")


def once_each(stamp):
    """The stamp of a crate, where those of all below it are made once each, and not once for each way down to them."""
    made = threading.local()

    def stamp_once(crate):
        known = getattr(made, "known", None)
        if known is not None:
            if crate.folder not in known:
                known[crate.folder] = stamp(crate)
            return known[crate.folder]
        made.known = {}
        try:
            return stamp(crate)
        finally:
            made.known = None

    return stamp_once


rt.rtlib.Crate.stamp = once_each(rt.rtlib.Crate.stamp)


class Built:
    """A crate in a folder where `rt ci` has built the libraries below it."""

    def __init__(self, crate):
        self.crate, self.name, self.folder = crate, crate.name, crate.folder

    def check(self, texts, only, kept):
        """Checks the crate with these texts in place of its own, of the functions named alone: status and output."""
        words = [word for name in only for word in ("--only", name)]
        ended = rt.checked(self.crate, texts, ["--jobs", "1", *words], kept)
        return ended.returncode, ended.stdout

    def refuses(self, edit, kept):
        """Whether a whole check refuses the edit, and what is to be said of it: `rt must-fail` of one edit."""
        came_to, text = rt.must_fail(self.crate, edit, ["--jobs", "1"], kept)
        if not is_refusal(came_to):
            came_to, text = rt.must_fail(self.crate, edit, ["--jobs", "1"])
        return is_refusal(came_to), text

    def functions(self):
        source = bodies.Source(self.folder)
        source.read("src/main.rt" if self.crate.is_program else "src/lib.rt")
        return source.functions

    def rests_on(self):
        """The folders, besides those of the crate itself, whose files a verdict on it rests on."""
        return [f"{below.rlib}/{part}" for below in self.crate.below() for part in ("interface", "lang/antt")]

    def of_kit(self):
        return sorted(self.crate.of_kit)


def is_refusal(came_to):
    """Whether an edit that came to this was refused: one kit says whether it was, and another what it came to."""
    return came_to if isinstance(came_to, bool) else came_to in (rt.REFUSED, rt.AT_LIMIT)


def built_crates(folder):
    """The crates of a folder, lowest first. What they start ends when this process does."""
    os.chdir(folder)
    rt.rtlib.guarded()
    return [Built(crate) for crate in rt.rtlib.crates_below(os.getcwd())]


def edits_of(folder):
    """The edits of the crate in a folder, and the files among them that are none."""
    return rt.edits_of(types.SimpleNamespace(folder=folder))


def edited(edit, folder):
    """The texts that an edit makes, by their paths in the crate, or why it can't be applied."""
    return rt.read_edit(edit, folder)


def cannot_be_read(line, changed):
    """Whether a line says that the prover could not read a text, where an edit that only makes a statement false
    reads well."""
    return rt.unread(line, changed)


def shown_name(function):
    """The end of a function's name as a check prints it."""
    if not function.block:
        return "::".join([*function.module[-1:], function.name])
    # (that of `impl From<S> for X` is `XFromS::from`)
    trait, _, inside = bodies.named(function.block.trait) if function.in_trait else ("", "", [])
    given = "".join(bodies.named(it)[0] for it in inside)
    return f"{bodies.named(function.block.ty)[0]}{trait}{given}::{function.name}"


def is_stale(output):
    return bool(rt.rtlib.STALE.search(output))


def identity():
    with open(f"{rt.KIT}/KIT-ID", "rb") as file:
        return file.read()


def processors():
    return rt.processors()


def free_memory():
    return rt.free()


PARTS = rt.rtlib.PARTS


class Library:
    """A crate whose library is built where it stands, over what earlier runs kept."""

    def __init__(self, crate):
        self.crate, self.name, self.folder = crate, crate.name, crate.folder
        self.below = [it.name for it in crate.below()]
        self.uses = [it.name for it in crate.deps]
        self.is_program = crate.is_program

    def is_built(self):
        if not self.is_program:
            return self.crate.is_built()
        program = f"{self.folder}/out/{self.name}"
        if not os.path.isfile(program):
            return False
        return rt.rtlib.text_of(f"{program}.stamp") == self.crate.stamp() + rt.rtlib.sum_of(program)

    def lines(self):
        return self.crate.count(rb"\n")

    def build(self, jobs):
        """Proves and builds the library: whether that went well, and what was said."""
        crate = copy.copy(self.crate)
        with tempfile.TemporaryFile("w+", errors="replace") as crate.out:
            status = crate.build_rlib(["--jobs", str(jobs)], anew=False)
            crate.out.seek(0)
            return status == 0, crate.out.read()


def libraries_of(folder):
    """The crates of a folder, lowest first, as libraries to be built. What they start ends when this process does."""
    rt.rtlib.guarded()
    crates = sorted(rt.rtlib.crates_below(folder), key=lambda it: len(it.below()))
    for crate in crates:
        # (a program's stamp covers its files args and status)
        rt.read_files(crate)
    return [Library(crate) for crate in crates]


def locked(libraries):
    """Keeps every other rt out of these crates until what this gives is let go."""
    return Lock(rt.rtlib.lock([it.crate for it in libraries]))


class Lock:
    def __init__(self, held):
        self.held = held

    def release(self):
        while self.held:
            os.close(self.held.pop())


if __name__ == "__main__":
    # The command `rt` itself, whose stamps are made once each.
    sys.exit(rt.main(sys.argv[1:]))
