"""The package: how it is built, what it has, and how it is installed into a scratch root and removed from it."""
import os
import pathlib
import re
import shutil

from gate.tally import ROOT
from shipping.room import Room, needs, ran

# What every package has, and the mode of it.
FILES = {
    "./usr/bin/prefork": "-rwxr-xr-x", "./usr/bin/prefork-serve": "lrwxrwxrwx", "./usr/bin/prefork-ctl": "lrwxrwxrwx",
    "./usr/lib/prefork/out/prefork-activate": "-rwxr-xr-x", "./usr/lib/systemd/system/prefork@.service": "-rw-r--r--",
    "./usr/lib/systemd/system/prefork@.socket": "-rw-r--r--", "./usr/share/man/man1/prefork-serve.1.gz": "-rw-r--r--",
    "./usr/share/man/man5/prefork.toml.5.gz": "-rw-r--r--", "./usr/share/doc/prefork/copyright": "-rw-r--r--",
    "./usr/share/bash-completion/completions/prefork": "-rw-r--r--", "./etc/prefork/default.env": "-rw-r--r--",
    "./usr/share/doc/prefork/fleet/roles/prefork/tasks/main.yml": "-rw-r--r--",
    "./usr/share/doc/prefork/README.md": "-rw-r--r--", "./usr/share/doc/prefork/docs/FORMATS.md": "-rw-r--r--",
    "./usr/share/doc/prefork/docs/WORKERS.md": "-rw-r--r--", "./usr/share/doc/prefork/docs/formats/json.md": "-rw-r--r--",
    **{f"./usr/share/zsh/vendor-completions/{name}": "-rw-r--r--" for name in ("_prefork", "_prefork-ctl", "_prefork-service")},
    **{f"./usr/share/fish/vendor_completions.d/{name}.fish": "-rw-r--r--" for name in ("prefork", "prefork-ctl", "prefork-serve")},
}
# The texts whose links lead somewhere in the package.
LINKED = ("guides", "examples", "units", "containers")
LINK = re.compile(r"\]\((?!https?:|#)([^)#\s]+)")
# What ./package reads; of the crates it looks at the program and at how old its proof is.
SOURCES = ("package", "install", "CHANGELOG.md", "README.md", "crates.txt", "docs", "completions", "service", "fleet")


def can_build() -> bool:
    return bool(shutil.which("dpkg-deb") and shutil.which("cc"))


def built(prefork: str, folder: pathlib.Path) -> pathlib.Path:
    """A package of a program that is said to be unproved."""
    found = ran(ROOT / "package", "--unproved", prefork, folder)
    made = pathlib.Path(found.stdout.strip().split("\n")[-1])
    if found.returncode or not made.is_file():
        raise ValueError(f"./package: {found.stdout}")
    return made


def builds_packages(room: Room) -> None:
    """It has what it should have, is the same each time, and has a program that is not proved only by that name."""
    package = room.the_package()
    listed = ran("dpkg-deb", "--contents", package).stdout
    lines = [line.split(None, 5) for line in listed.splitlines()]
    modes = {words[5].partition(" -> ")[0]: words[0] for words in lines}
    for path, mode in FILES.items():
        room.check(f"{path} has the mode {modes.get(path)}", modes.get(path) == mode)
    others = {words[1] for words in lines}
    room.check(f"its files belong to {others}", others == {"root/root"})
    own = ("./usr/", "./etc/prefork/")
    strange = [path for path in modes if not path.startswith(own) and path not in ("./", "./etc/")]
    room.check(f"it has files elsewhere: {strange}", not strange)
    lead_somewhere(room, package)
    pleases_lintian(room, package)
    version = ran("dpkg-deb", "--field", package, "Version").stdout.strip()
    room.check(f"an unproved program is in version {version}", version.endswith("~unproved"))
    takes_only_what_is_proved(room, version.partition("~")[0])


def lead_somewhere(room: Room, package: pathlib.Path) -> None:
    """The links of guides lead to files of the package."""
    tree = room.path / "unpacked"
    ran("dpkg-deb", "--extract", package, tree)
    documents = tree / "usr" / "share" / "doc" / "prefork"
    pages = [page for name in LINKED for page in (documents / name).glob("*.md")]
    dead = [f"{page.name}: {link}" for page in pages for link in LINK.findall(page.read_text()) if not (page.parent / link).exists()]
    room.check(f"links lead nowhere: {dead}", pages and not dead)


def pleases_lintian(room: Room, package: pathlib.Path) -> None:
    """lintian has no error, where it is there."""
    if not shutil.which("lintian"):
        room.skipped.append("lintian is not on the path")
        return
    found = ran("lintian", "--allow-root", "--fail-on=error", package)
    room.check(f"lintian: {found.stdout}", found.returncode == 0)


def takes_only_what_is_proved(room: Room, version: str) -> None:
    """Without the option, a program is refused that has no proof, or an older one than its sources. A short script
    stands for the program, of which two packages are the same."""
    tree = room.path / "tree"
    tree.mkdir()
    for name in SOURCES:
        if (ROOT / name).is_dir():
            shutil.copytree(ROOT / name, tree / name)
        else:
            shutil.copy(ROOT / name, tree / name)
    out = tree / "crates" / "prefork" / "out"
    (out.parent / "src").mkdir(parents=True)
    out.mkdir()
    refused(room, tree, "no program")
    (out / "prefork").write_text(f"#!/bin/sh\necho prefork {version}\n")
    (out / "prefork").chmod(0o755)
    refused(room, tree, "a program without a proof")
    (out / "proved").touch()
    found = ran(tree / "package", room.path)
    room.check(f"a proved program is refused: {found.stdout}", found.returncode == 0)
    made = found.stdout.strip().split("\n")[-1]
    room.check(f"its package is {made}", re.search(rf"/prefork_{version}_\w+\.deb$", made))
    (tree / "docs" / "prefork.1").touch()
    before = pathlib.Path(made).read_bytes()
    ran(tree / "package", room.path)
    room.check("two builds differ", pathlib.Path(made).read_bytes() == before)
    later = os.stat(out / "proved").st_mtime + 10
    (out.parent / "src" / "main.rt").touch()
    os.utime(out / "proved", (later - 3600, later - 3600))
    refused(room, tree, "a program whose sources are newer")


def refused(room: Room, tree: pathlib.Path, what: str) -> None:
    found = ran(tree / "package", room.path)
    room.check(f"{what} is packaged: {found.stdout}", found.returncode == 1 and "is not proved" in found.stdout)


class Root:
    """A scratch root with a database of its own for dpkg."""

    def __init__(self, path: pathlib.Path):
        needs("dpkg")
        self.path = path
        own = path / "var" / "lib" / "dpkg"
        for folder in ("info", "updates", "triggers"):
            (own / folder).mkdir(parents=True)
        (own / "status").touch()
        # Scripts of the package run outside the root, which has no shell, and are told of it; what the package depends
        # on is on the machine.
        self.dpkg = ["dpkg", f"--root={path}", "--force-script-chrootless", "--force-depends", f"--log={path}.log"]
        self.bin = path / "usr" / "bin"

    def run(self, *words: object) -> str:
        found = ran(*self.dpkg, *words)
        if found.returncode:
            raise ValueError(f"dpkg {words}: {found.stdout}")
        return found.stdout

    def files(self) -> list[str]:
        """What is in it, but for dpkg's own."""
        found = (file for file in self.path.rglob("*") if not file.is_dir())
        return sorted(str(file.relative_to(self.path)) for file in found if "var/lib/dpkg" not in str(file))
