"""Starts the command line: `python3 -S python/src WORD ..`, as the shell script `dvbemu` does."""
import sys

from dvbemu.cli import begin

if __name__ == "__main__":
    begin(*sys.argv[1:])
