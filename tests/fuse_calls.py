"""Calls that a kernel does, and no preload sees: descriptors that travel, forks, waits; then says `right`."""
import fcntl
import os
import select
import signal
import socket
import struct
import subprocess
import sys
import time

DEMUX, RECORDER, TUNER = (f"/dev/dvb/adapter0/{name}0" for name in ("demux", "dvr", "frontend"))
# DMX_SET_FILTER, DMX_SET_PES_FILTER and FE_SET_VOLTAGE of linux/dvb, and what they say: the PAT, from now on; all packets, to the
# recorder.
SET_FILTER, SET_PES_FILTER, VOLTAGE = 0x403C6F2B, 0x40146F2C, 0x6F43
PAT = struct.pack("=H16s16s16s2xII", 0, b"", b"\xff", b"", 0, 4)
SILENT = struct.pack("=H16s16s16s2xII", 0x1FF0, b"", b"", b"", 0, 4)
ALL = struct.pack("=H2xIIII", 0x2000, 0, 2, 20, 4)
# How a section of the PAT begins: its table_id, its length of 21 bytes with the flags, and the transport stream's number.
BEGINS = b"\x00\xb0\x15\x12\x34"
# A program that is sent a descriptor.
TAKES = """import os, socket, sys
_, (file,), _, _ = socket.recv_fds(socket.socket(fileno=int(sys.argv[1])), 1, 1)
sys.exit(os.read(file, 4096)[:5] != bytes.fromhex("00b0151234"))
"""


def demux(words=PAT, flags=0):
    file = os.open(DEMUX, os.O_RDWR | flags)
    fcntl.ioctl(file, SET_FILTER, words)
    return file


def all_packets():
    """A filter by which the recorder has all packets."""
    file = os.open(DEMUX, os.O_RDWR)
    fcntl.ioctl(file, SET_PES_FILTER, ALL)
    return file


def is_pat(file):
    return os.read(file, 4096).startswith(BEGINS)


def error_of(call, *words):
    try:
        call(*words)
    except OSError as fault:
        return fault.strerror
    return None


def by_socket():
    """A descriptor goes to another program, which reads a section by it."""
    ours, theirs = socket.socketpair()
    child = subprocess.Popen([sys.executable, "-c", TAKES, str(theirs.fileno())], pass_fds=[theirs.fileno()])
    file = demux()
    socket.send_fds(ours, [b"x"], [file])
    os.close(file)
    assert child.wait() == 0


def by_number():
    """An open of /proc/self/fd/N is another open of the device: of the recorder there is one."""
    file = os.open(RECORDER, os.O_RDONLY)
    assert error_of(os.open, f"/proc/self/fd/{file}", os.O_RDONLY) == "Device or resource busy"
    assert os.readlink(f"/proc/self/fd/{file}") == RECORDER
    os.close(file)
    os.close(os.open(RECORDER, os.O_RDONLY))


def by_children():
    """A child reads what its parent has opened, also one that is killed; a device is free where both have closed it."""
    file = demux()
    recorder = os.open(RECORDER, os.O_RDONLY)
    for number in range(20):
        if not (child := os.fork()):
            assert is_pat(os.dup(file))
            os.kill(os.getpid(), signal.SIGKILL if number % 2 else signal.SIGTERM)
        os.waitpid(child, 0)
    assert is_pat(file)
    if not (child := os.fork()):
        time.sleep(0.5)
        os._exit(0)
    os.close(recorder)
    assert error_of(os.open, RECORDER, os.O_RDONLY) == "Device or resource busy"
    os.waitpid(child, 0)
    os.close(os.open(RECORDER, os.O_RDONLY))


def by_waits():
    """Each wait ends where a section comes, and none where none does."""
    file, silent = demux(), demux(SILENT)
    both = select.epoll()
    both.register(file, select.EPOLLIN)
    both.register(silent, select.EPOLLIN)
    assert [one for one, _ in both.poll(20)] == [file]
    assert select.select([silent, file], [], [], 20)[0] == [file]
    waits = select.poll()
    waits.register(os.dup(file), select.POLLIN | select.POLLPRI)
    assert waits.poll(20000)[0][1] == select.POLLIN | select.POLLPRI
    assert is_pat(file) and not select.select([silent], [], [], 0.3)[0]
    edge = select.epoll()
    edge.register(file, select.EPOLLIN | select.EPOLLET)
    for _ in range(3):
        assert edge.poll(20)
        os.set_blocking(file, False)
        while not error_of(os.read, file, 4096):
            pass


def by_a_signal():
    """A read that waits is ended by a handler; a filter's timeout ends it too."""
    signal.signal(signal.SIGALRM, lambda *_: (_ for _ in ()).throw(InterruptedError))
    signal.setitimer(signal.ITIMER_REAL, 0.3)
    try:
        os.read(demux(SILENT), 4096)
    except InterruptedError:
        pass
    else:
        raise AssertionError("the read has ended without a signal")
    assert error_of(os.read, demux(SILENT[:52] + struct.pack("=II", 200, 4)), 4096) == "Connection timed out"


def by_flags():
    """O_NONBLOCK counts as it stands at the read; of two opens that change the tuner one is refused, and a reader may not."""
    file = demux(SILENT)
    os.set_blocking(file, False)
    assert error_of(os.read, file, 4096) == "Resource temporarily unavailable"
    assert error_of(os.write, file, b"x") == "Invalid argument"
    tuner = os.open(TUNER, os.O_RDWR)
    assert error_of(os.open, TUNER, os.O_RDWR) == "Device or resource busy"
    reader = os.open(TUNER, os.O_RDONLY)
    assert error_of(fcntl.ioctl, reader, VOLTAGE, 0) == "Operation not permitted"
    assert error_of(fcntl.ioctl, tuner, VOLTAGE, 0) is None
    os.close(tuner)
    os.close(os.open(TUNER, os.O_RDWR))


def by_places():
    """A place is no place: a section is read by pread and preadv, and a position can be asked for."""
    file = demux()
    into = bytearray(4096)
    assert os.lseek(file, 0, os.SEEK_CUR) == 0 and os.pread(file, 4096, 700).startswith(BEGINS)
    assert os.preadv(file, [memoryview(into)[:2], memoryview(into)[2:]], 0) > 5 and into.startswith(BEGINS)


def by_a_recorder():
    """A blocking read of the recorder gives all that it asks for, packets in one run."""
    recorder, file = os.open(RECORDER, os.O_RDONLY), all_packets()
    packets = os.read(recorder, 188 * 200)
    os.close(file)
    assert len(packets) == 188 * 200 and {packets[at] for at in range(0, len(packets), 188)} == {0x47}


def main():
    for call in by_socket, by_number, by_children, by_waits, by_a_signal, by_flags, by_places, by_a_recorder:
        call()
        print(call.__name__, flush=True)
    print("right")


if __name__ == "__main__":
    main()
