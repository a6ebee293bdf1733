"""`python3 -m dvbemu WORD ..` is `dvbemu WORD ..`."""
import sys

from .cli import begin

if __name__ == "__main__":
    begin(*sys.argv[1:])
