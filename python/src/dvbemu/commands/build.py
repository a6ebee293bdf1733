"""Builds a program ahead of its first use: `dvbemu build --help`."""
from __future__ import annotations

from .. import build
from .. import tool


def command() -> tool.Command:
    """The command line."""
    parser = tool.Command(
        "build",
        "PROGRAM ..",
        "Proves and builds a program in advance: dvbemu, or dvb_serve, the server of `serve`.",
        reads="the crates of this repository; the toolchain's command rt has to be in the PATH",
        writes="the path of each program; on standard error its progress",
        status="0 if the programs are built; 1 if they can't be; 2 for a usage error",
        example="dvbemu build dvbemu dvb_serve",
    )
    parser.add_argument("programs", metavar="PROGRAM", nargs="+", choices=[*build.PROGRAMS], help="dvbemu or dvb_serve")
    return parser


def main() -> None:
    """Builds them."""
    parser = command()
    for name in parser.parse_args().programs:
        try:
            print(build.path_of(name), flush=True)
        except build.Stopped as why:
            parser.fail(why)
