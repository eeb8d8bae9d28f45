#!/usr/bin/python3
"""Tries the three parts of web/ (docs/WEB.md): maps, the gateway and the page.

    tools/try_web.py [PROGRAM] [--part maps|gateway|page] .. [--only WORD] [--requests N] [--map FILE] [--shots FOLDER]
    tools/try_web.py [PROGRAM] --part speed [--side N]

PROGRAM is the built program; N requests by dice are thrown at the gateway (10,000); FILE is a real map, else spreewaldring.osm of Debian's sumo-tools; the page's screenshots go into
FOLDER. The part `speed`, which is left out where none is named, measures the gateway over a town of N by N crossings (100). Needs what `web/install.sh --tests` installs. All is in a
folder of its own, on ports of 127.0.0.1 that are free; all that was started is killed at the end.
"""
import argparse
import pathlib
import signal
import sys
import tempfile

TOP = pathlib.Path(__file__).resolve().parent.parent
sys.path[:0] = [str(TOP / "web" / "tests"), str(TOP / "web"), str(TOP / "client")]

from checks import Checks
from of_gateway import try_gateway
from of_maps import try_maps
from of_page import try_page
from of_speed import tell_speed

PARTS = ("maps", "gateway", "page")
REAL = pathlib.Path("/usr/share/sumo/tools/game/racing/spreewaldring.osm")


def main() -> int:
    parser = argparse.ArgumentParser(description="Tries the three parts of web/.")
    parser.add_argument("program", nargs="?", type=pathlib.Path, default=TOP / "crates" / "roadmark" / "out" / "roadmark")
    parser.add_argument("--part", action="append", choices=[*PARTS, "speed"])
    parser.add_argument("--only", default="", help="only the checks in whose name this word stands")
    parser.add_argument("--requests", type=int, default=10_000)
    parser.add_argument("--map", type=pathlib.Path, default=REAL)
    parser.add_argument("--shots", type=pathlib.Path)
    parser.add_argument("--side", type=int, default=100)
    given = parser.parse_args()
    program = given.program.resolve()
    if not program.is_file():
        parser.error(f"{program}: there is no such program")
    signal.signal(signal.SIGTERM, lambda number, frame: sys.exit(128 + number))
    checks, parts = Checks(given.only), given.part or PARTS
    real = given.map if given.map.is_file() else None
    with tempfile.TemporaryDirectory(prefix="try_web.") as name:
        folder = pathlib.Path(name)
        if "maps" in parts:
            try_maps(checks, folder, program, real)
        if "gateway" in parts:
            try_gateway(checks, folder, program, given.requests)
        if "page" in parts:
            try_page(checks, folder, program, given.shots)
        if "speed" in parts:
            tell_speed(folder, program, given.side)
    return checks.end()


if __name__ == "__main__":
    sys.exit(main())
