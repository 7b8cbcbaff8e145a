"""The units for systemd: what systemd-analyze says of them."""
import os
import re

from shipping.room import SERVICE, Room, needs, ran

UNITS = SERVICE / "units"
# A user that every Debian has, as the name of a service.
INSTANCE = "daemon"
# The most that systemd-analyze security may say of the unit; 10 is the worst.
MOST_EXPOSURE = 2.0
# The programs that units start are those of the machine, which has not installed the package.
PROGRAMS = re.compile(r"/usr/bin/prefork[a-z-]*")


def units_are_read(room: Room) -> None:
    """Each unit is read without a complaint, as it is and with its drop-in."""
    needs("systemd-analyze")
    folder = room.path / "units"
    folder.mkdir()
    for name in ("prefork@.service", "prefork@.socket"):
        (folder / name).write_text(PROGRAMS.sub("/bin/true", (UNITS / name).read_text()))
    verify(room, f"prefork@{INSTANCE}.service")
    verify(room, f"prefork@{INSTANCE}.socket")
    found = ran("systemd-analyze", "security", "--offline=yes", folder / "prefork@.service")
    exposure = re.search(r"exposure level for \S+: ([\d.]+)", found.stdout)
    room.check(f"exposure: {found.stdout[-300:]}", exposure and float(exposure[1]) <= MOST_EXPOSURE)
    own = folder / f"prefork@{INSTANCE}.service.d"
    own.mkdir()
    (own / "two-users.conf").write_text((UNITS / "two-users.conf").read_text())
    verify(room, f"prefork@{INSTANCE}.service")
    with open(folder / "prefork@.service", "a") as unit:
        unit.write("[Service]\nLimitNOFILLE=1\n")
    said = analyzed(room, f"prefork@{INSTANCE}.service")
    room.check("a mistake in a unit is not found", "LimitNOFILLE" in said)


def analyzed(room: Room, unit: str) -> str:
    """What systemd-analyze says of the units of this folder. It reads those of the machine too, whose faults are not
    ours."""
    environment = {**os.environ, "SYSTEMD_UNIT_PATH": f"{room.path / 'units'}:"}
    said = ran("systemd-analyze", "verify", "--man=no", unit, env=environment).stdout
    return "\n".join(line for line in said.splitlines() if "prefork@" in line)


def verify(room: Room, unit: str) -> None:
    said = analyzed(room, unit)
    room.check(f"{unit}: {said}", not said)
