#!/usr/bin/env -S sh -c 'exec "${0%/*}/../python" "$0" "$@"'
"""A plain second generator: the session of a number, by the rules of docs/MADE.md and docs/BEHAVIOUR.md alone.

    made.py NUMBER              writes the session of the number
    made.py --sums NUMBER [B]   writes the sums of its run in batches of B packets, 64 without B, by the second program

It shares no code with dvbemu and isn't proved. The generator's multiplier is PCG's own.
"""
import sys

from oracle import second

SCRIPT = """c0 open n0
c0 size n0 16777216
c0 section n0 0 0 1 0=00/ff/00
c1 open n1
c1 size n1 16777216
c1 section n1 512 0 1 0=42/ff/00
c2 open n2
c2 size n2 16777216
c2 pes n2 256 frontend tap 1 0
c3 open n3
c3 size n3 16777216
c3 pes n3 257 frontend tap 0 0
c4 open n4
c4 pes n4 256 frontend ts_tap 20 0
c5 open n5
c5 pes n5 257 frontend ts_tap 20 0
c6 open dvr
c6 size dvr 16777216
c7 open n7
c7 size n7 16777216
c7 pes n7 0 frontend tsdemux_tap 20 0
c7 add n7 512
c0 start n0
c1 start n1
c2 start n2
c3 start n3
c4 start n4
c5 start n5
c7 start n7
c0 drain n0 4096
c1 drain n1 4096
c2 drain n2 65536
c3 drain n3 65536
c6 drain dvr 65536
c7 drain n7 65536
stream
"""
# RULES: 3ca0e38d The session of a number
PACKETS = 65536
# The PID by a word modulo 16, and the table_id of its sections.
PIDS = [256] * 10 + [257] * 3 + [0, 8191, 512]
TABLES = {0: 0x00, 512: 0x42}


def words(state, stream):
    """PCG32 (XSH RR 64/32), seeded with a state and a stream as its reference implementation is."""
    increment = 2 * stream + 1

    def step(held):
        return (held * 6364136223846793005 + increment) % 2**64

    held = step((step(0) + state) % 2**64)
    while True:
        mixed, turn = (held >> 18 ^ held) >> 27 & 0xFFFFFFFF, held >> 59
        yield (mixed >> turn | mixed << (32 - turn)) & 0xFFFFFFFF
        held = step(held)


def section(table, place):
    front = bytes([table, 0xB0, 0x11]) + place.to_bytes(2, "big") + b"\xc1\0\0" + place.to_bytes(8, "big")
    return front + second.crc(front).to_bytes(4, "big")


def packets(number):
    counters = {}
    for place, word in zip(range(PACKETS), words(number, 54)):
        pid = PIDS[word % 16]
        if pid in TABLES:
            start, payload = 1, (b"\0" + section(TABLES[pid], place)).ljust(184, b"\xff")
        else:
            start, payload = int(word // 65536 % 8 == 0), bytes((place + j) % 256 for j in range(184))
        counter = counters.get(pid, 0)
        counters[pid] = (counter + 1) % 16
        yield bytes([0x47, start << 6 | pid >> 8, pid & 0xFF, 0x10 | counter]) + payload


def session(number):
    return SCRIPT.encode() + b"".join(packets(number))


def main(asked):
    if asked[0] == "--sums":
        sys.stdout.write(second.sums(session(int(asked[1])), int(asked[2]) if len(asked) > 2 else 64))
    else:
        sys.stdout.buffer.write(session(int(asked[0])))


if __name__ == "__main__":
    main(sys.argv[1:])
