#!/usr/bin/env python3
"""A small program that tunes: tuner.py WORD ..

    HZ[:SYSTEM[:VOLTAGE[:TONE[:STREAM[:RATE]]]]]
                tunes there (kHz for a satellite), and says which services its table tells, or what the status or the error is; a
                number that is left out isn't set, but for a rate of 22,000,000 symbols
    cable V T   sets voltage and tone by the older calls
    adapter N   goes on with this adapter
    look        says the status, as a program beside another one sees it
    packets N   records so many packets and says which PIDs they have
    hold        writes `held`, and reads until there is an error, of which it tells
"""
import ctypes
import errno
import fcntl
import os
import struct
import sys
import time

FE_SET_PROPERTY, FE_GET_PROPERTY, FE_READ_STATUS, FE_SET_TONE, FE_SET_VOLTAGE = 0x40106F52, 0x80106F53, 0x80046F45, 0x6F42, 0x6F43
DMX_SET_FILTER, DMX_SET_PES_FILTER = 0x403C6F2B, 0x40146F2C
CLEAR, TUNE, FREQUENCY, RATE, VOLTAGE, TONE, SYSTEM, STREAM, STRENGTH = 2, 1, 3, 8, 10, 11, 17, 42, 62
USUAL_RATE = 22_000_000
LOCK, SDT_PID, SDT, WAITS, START = 0x10, 17, 0x42, 4.0, 4
IN_FRONTEND, OUT_TS_TAP, OTHER = 0, 2, 20
PROPERTY = struct.Struct("=I12sI52sI")


def properties(tuner, number, pairs):
    """Sets or asks properties, and gives what stands there afterwards."""
    all_ = ctypes.create_string_buffer(b"".join(PROPERTY.pack(command, b"", value, b"", 0) for command, value in pairs))
    fcntl.ioctl(tuner, number, struct.pack("=IIQ", len(pairs), 0, ctypes.addressof(all_)))
    return [all_[PROPERTY.size * at:PROPERTY.size * (at + 1)] for at in range(len(pairs))]


def status_of(tuner):
    return struct.unpack("=I", fcntl.ioctl(tuner, FE_READ_STATUS, bytes(4)))[0]


def strength_of(tuner):
    """The strength that DTV_STAT_SIGNAL_STRENGTH tells."""
    told = properties(tuner, FE_GET_PROPERTY, [(STRENGTH, 0)])[0]
    return struct.unpack_from("=q", told, 18)[0]


def services(folder):
    """The names that the next table of services has."""
    with open(f"{folder}/demux0", "r+b", buffering=0) as demux:
        byte, mask = (bytes([value]).ljust(16, b"\0") for value in (SDT, 0xFF))
        fcntl.ioctl(demux, DMX_SET_FILTER, struct.pack("=H16s16s16sxxII", SDT_PID, byte, mask, bytes(16), 5000, START))
        table = demux.read(4096)
    names, at = [], 11
    while at + 9 < len(table):
        provider = table[at + 8]
        name = at + 9 + provider
        names.append(table[name + 1:name + 1 + table[name]].decode())
        at += 5 + (struct.unpack_from(">H", table, at + 3)[0] & 0xFFF)
    return names


def tune(tuner, folder, word):
    """Tunes, waits for a lock, and says what is there."""
    numbers = zip((FREQUENCY, SYSTEM, VOLTAGE, TONE, STREAM, RATE),
                  (int(number) if number else None for number in word.split(":")))
    pairs = [(CLEAR, 0), (RATE, USUAL_RATE), *numbers, (TUNE, 0)]
    try:
        properties(tuner, FE_SET_PROPERTY, [pair for pair in pairs if pair[1] is not None])
    except OSError as fault:
        print(word, errno.errorcode[fault.errno], flush=True)
        return
    begun = time.monotonic()
    while not status_of(tuner) & LOCK and time.monotonic() - begun < WAITS:
        time.sleep(0.01)
    status = status_of(tuner)
    is_sure = bool(status & LOCK) == (strength_of(tuner) == 0xC000)
    told = " ".join(services(folder)) if status & LOCK else f"status {status}"
    print(word, told, *([] if is_sure else ["but a strength of", strength_of(tuner)]), flush=True)


def record(folder, count):
    """Records so many packets."""
    with open(f"{folder}/demux0", "r+b", buffering=0) as demux, open(f"{folder}/dvr0", "rb", buffering=0) as recorder:
        fcntl.ioctl(demux, DMX_SET_PES_FILTER, struct.pack("=HxxIIII", 0x2000, IN_FRONTEND, OUT_TS_TAP, OTHER, START))
        data = recorder.read(188 * count)
    pids = {(data[at + 1] & 0x1F) << 8 | data[at + 2] for at in range(0, len(data), 188)}
    print(len(data) // 188, *sorted(pids), flush=True)


def hold(folder):
    """Reads what never comes."""
    demux = os.open(f"{folder}/demux0", os.O_RDWR)
    fcntl.ioctl(demux, DMX_SET_FILTER, struct.pack("=H48sxxII", 0x1FF0, bytes(48), 0, START))
    print("held", flush=True)
    try:
        os.read(demux, 100)
    except OSError as fault:
        print(errno.errorcode[fault.errno], flush=True)


def main(words):
    folder, tuner = "/dev/dvb/adapter0", None
    words = iter(words)
    for word in words:
        if word == "adapter":
            folder, tuner = f"/dev/dvb/adapter{next(words)}", None
        elif word == "look":
            print(f"look {status_of(os.open(folder + '/frontend0', os.O_RDONLY)):x}", flush=True)
        elif word == "packets":
            record(folder, int(next(words)))
        elif word == "hold":
            hold(folder)
        else:
            tuner = os.open(folder + "/frontend0", os.O_RDWR) if tuner is None else tuner
            if word == "cable":
                for number in FE_SET_VOLTAGE, FE_SET_TONE:
                    fcntl.ioctl(tuner, number, int(next(words)))
            else:
                tune(tuner, folder, word)


if __name__ == "__main__":
    main(sys.argv[1:])
