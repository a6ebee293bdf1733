#!/usr/bin/env -S sh -c 'exec "${0%/*}/../python" "$0" "$@"'
"""A Python program that finds an adapter by its paths, and waits for a PAT by each means that Python has. It writes a
line for each that has found one."""
import asyncio
import fcntl
import os
import pathlib
import select
import selectors
import threading

from dvbemu.abi import DMX_IMMEDIATE_START, SET_FILTER

ADAPTER, SECONDS = "/dev/dvb/adapter0", 10
# A filter on table_id 0 of PID 0.
PAT = SET_FILTER.layout.pack(0, bytes(16), b"\xff" + bytes(15), bytes(16), 0, DMX_IMMEDIATE_START)


def table():
    """A demux that doesn't wait, with a filter on the PAT."""
    demux = os.open(f"{ADAPTER}/demux0", os.O_RDWR | os.O_NONBLOCK)
    fcntl.ioctl(demux, SET_FILTER.number, PAT)
    return demux


def tell(how, demux):
    """Says how a section was found, where it is a PAT."""
    data = os.read(demux, 4096)
    print(how if data[0] == 0 and len(data) > 8 else f"{how}: {data!r}", flush=True)
    os.close(demux)


def by_paths():
    is_there = os.path.exists(f"{ADAPTER}/dvr0") and pathlib.Path(ADAPTER, "demux0").is_char_device()
    if is_there and sorted(os.listdir(ADAPTER)) == ["demux0", "dvr0", "frontend0"]:
        print("paths", flush=True)


def by_select():
    demux = table()
    select.select([demux], [], [], SECONDS)
    tell("select", demux)


def by_poll(make, how):
    demux, waiting = table(), make()
    waiting.register(demux, select.POLLIN)
    waiting.poll(SECONDS * (1000 if how == "poll" else 1))
    tell(how, demux)


def by_selectors():
    demux = table()
    with selectors.DefaultSelector() as waiting:
        waiting.register(demux, selectors.EVENT_READ)
        waiting.select(SECONDS)
    tell("selectors", demux)


def by_file():
    with open(f"{ADAPTER}/demux0", "r+b", buffering=0) as demux:
        fcntl.ioctl(demux, SET_FILTER.number, PAT)
        print("file" if demux.read(4096)[0] == 0 else "file: no PAT", flush=True)


async def by_loop():
    demux, found = table(), asyncio.Event()
    asyncio.get_running_loop().add_reader(demux, found.set)
    await asyncio.wait_for(found.wait(), SECONDS)
    asyncio.get_running_loop().remove_reader(demux)
    tell("asyncio", demux)


def main():
    by_paths()
    by_select()
    by_poll(select.poll, "poll")
    by_poll(select.epoll, "epoll")
    by_selectors()
    by_file()
    asyncio.run(by_loop())
    thread = threading.Thread(target=by_file)
    thread.start()
    thread.join()


if __name__ == "__main__":
    main()
