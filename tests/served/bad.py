#!/usr/bin/env -S sh -c 'exec "${0%/*}/../python" "$0" "$@"'
"""A program that asks a server badly, past the preload: bad.py KIND.

    many    each request that is none, with its answer; the last line is `N answered`
    wild    whole requests with numbers of any size, in pieces, each of which is answered; the last line is `N answered`
    noise   bytes that are no requests, in pieces of any length, of which each 76 are answered; the last line is `N answered`
    crowd   a hundred programs that come in at once and go when they are answered; the last line is `N answered`
    names   names that are none, whole and not, and those of what is no pipe: devices without an end, files, the pipe of names
    knocks  names as fast as there is room for them, which cut others' lines
    half    a request and a half, and then an end
    stopped a request and a half, and then it is stopped
    flood   requests as long as there is room for them, of which it reads no answer
"""
import errno
import fcntl
import os
import random
import select
import signal
import struct
import sys
import threading
import time

from dvbemu import abi

REQUEST, REPLY = struct.Struct("<IIII60s"), struct.Struct("<IIIIQ")
OPEN, CLOSE, IOCTL, READ, POLL, LEAVE = 1, 3, 4, 5, 6, 7
# Requests whose arguments have 0, 2 and 60 bytes; and of all how many they have.
START, ADD, SECTION = abi.START.number, abi.ADD_PID.number, abi.SET_FILTER.number
NUMBERS = {number: request.layout.size for number, request in abi.REQUESTS.items()}
MOST = 0xFFFFFFFF
EBADF, EINVAL, ENOTTY = errno.EBADF, errno.EINVAL, errno.ENOTTY
# Verb, node, number and length of a request, and the error that answers it. Node 0 is the program's, node 1 nobody's.
ANSWERS = [
    (0, 0, 0, 0, EINVAL), (8, 0, 0, 0, EINVAL), (MOST, 0, 0, 0, EINVAL), (MOST, 33, 0, 0, EBADF),
    (CLOSE, 33, 0, 0, EBADF), (READ, MOST, 10, 0, EBADF), (POLL, 1 << 31, 0, 0, EBADF), (IOCTL, 33, START, 0, EBADF),
    (CLOSE, 1, 0, 0, EBADF), (READ, 1, 10, 0, EBADF), (POLL, 1, 0, 0, EBADF), (IOCTL, 1, START, 0, EBADF),
    (IOCTL, 0, 0, 0, ENOTTY), (IOCTL, 0, MOST, 60, ENOTTY), (IOCTL, 0, START, 1, EINVAL), (IOCTL, 0, ADD, 0, EINVAL),
    (IOCTL, 0, ADD, 3, EINVAL), (IOCTL, 0, SECTION, 59, EINVAL), (IOCTL, 0, SECTION, 61, EINVAL), (IOCTL, 0, START, MOST, EINVAL),
    (READ, 0, MOST, 0, 0), (READ, 0, 0, MOST, 0), (LEAVE, MOST, MOST, MOST, 0), (CLOSE, 0, 0, 0, EBADF),
]  # fmt: skip
# How many wild requests there are, how many bytes of noise, how many programs in a crowd, and in how many seconds all are
# answered.
WILD, NOISE, CROWD, SECONDS = 2000, 200_000, 100, 30


class Line:
    """The two pipes of a program that comes in."""

    def __init__(self, number=0):
        self.folder, self.name = os.environ["DVBEMU_DIR"], f"{os.getpid()}{number:03}"
        self.paths = [os.path.join(self.folder, f"{self.name}.{end}") for end in ("ask", "tell")]
        for path in self.paths:
            os.mkfifo(path, 0o600)
        self.ask, self.tell = (os.open(path, os.O_RDWR) for path in self.paths)
        self.knock(b"\n%s\n" % self.name.encode())

    def knock(self, told):
        """Writes this where names are told."""
        with open(os.path.join(self.folder, "knock"), "wb", buffering=0) as pipe:
            pipe.write(told)

    def put(self, *numbers, argument=b"\xff" * 60, size=REQUEST.size):
        """Writes so much of a request."""
        os.write(self.ask, REQUEST.pack(*numbers, argument)[:size])

    def take(self, count):
        """So many bytes of answers."""
        taken = b""
        while len(taken) < count:
            taken += os.read(self.tell, count - len(taken))
        return taken

    def answer(self):
        """The error of the next answer, behind whose head stand bytes that were read."""
        code, length, *_ = REPLY.unpack(self.take(REPLY.size))
        self.take(length)
        return code

    def code(self, *numbers):
        """The answer to a request."""
        self.put(*numbers)
        return self.answer()

    def leave(self):
        """Goes, without a word."""
        for end, path in (self.ask, self.paths[0]), (self.tell, self.paths[1]):
            os.close(end)
            os.unlink(path)


def pieces_of(data, numbers):
    """The bytes in pieces of any length."""
    while data:
        count = min(numbers.choice((1, 3, 76, 1000, 5000)), len(data))
        yield data[:count]
        data = data[count:]


def wild(line):
    """Asks for whatever there is, and more; the same in each run."""
    numbers, verbs = random.Random(1), (OPEN, 2, CLOSE, IOCTL, IOCTL, IOCTL, IOCTL, READ, READ, POLL, LEAVE, 0, MOST)
    for _ in range(WILD):
        number = numbers.choice((*NUMBERS, numbers.getrandbits(32)))
        length = numbers.choice((NUMBERS.get(number, 0), NUMBERS.get(number, 0), numbers.getrandbits(5), MOST))
        argument = struct.pack("<H", numbers.choice((0, 17, 256, 0x2000, MOST >> 16))) + numbers.randbytes(58)
        node = numbers.choice((0, 1, 2, 3, 32, numbers.getrandbits(32)))
        asked = REQUEST.pack(numbers.choice(verbs), node, number, length, argument)
        for piece in pieces_of(asked, numbers):
            os.write(line.ask, piece)
        line.answer()
    print(f"{WILD} answered", flush=True)


def noise(line):
    """Writes noise, and reads what answers it beside that."""
    numbers = random.Random(2)
    data, count = numbers.randbytes(NOISE), NOISE // REQUEST.size
    writer = threading.Thread(target=lambda: [os.write(line.ask, piece) for piece in pieces_of(data, numbers)], daemon=True)
    writer.start()
    print(sum(line.answer() != 0 for _ in range(count)), "answered", flush=True)


def crowd():
    """Comes in as many, of whom each goes once it is answered."""
    lines, answered, end = {}, 0, time.monotonic() + SECONDS
    for number in range(1, CROWD + 1):
        line = Line(number)
        line.put(OPEN, 0, 0, 0)
        lines[line.tell] = line
    while lines and time.monotonic() < end:
        for tell in select.select(list(lines), [], [], 1)[0]:
            answered += lines[tell].answer() == 0
            lines.pop(tell).leave()
    print(answered, "answered", flush=True)


def names(line):
    """Tells what is no name, and names of what is no pipe. `mine` in the working folder is a file that is the user's."""
    line.knock(b"\n../nowhere\n" + b"9" * 64 + b"\n\n" + bytes(64) + b"\n\xff\n-1\n" + b"1" * 70_000 + b"\nshort")
    knock, mine = os.path.join(line.folder, "knock"), os.path.abspath("mine")
    for number, ends in enumerate((("/dev/zero", "/dev/null"), ("/dev/zero", None), ("/dev/urandom", "/dev/full"), (knock, knock),
                                   (None, knock), (None, mine), (mine, mine), ("/", "/")), 500):  # fmt: skip
        name = f"{os.getpid()}{number}"
        for path, end in zip(ends, ("ask", "tell")):
            there = os.path.join(line.folder, f"{name}.{end}")
            os.symlink(path, there) if path else os.mkfifo(there, 0o600)
        line.knock(b"\n%s\n" % name.encode())
    for number, end in (900, "ask"), (901, "tell"):
        os.link(knock, os.path.join(line.folder, f"{os.getpid()}{number}.{end}"))
        os.mkfifo(os.path.join(line.folder, f"{os.getpid()}{number}.{'tell' if end == 'ask' else 'ask'}"), 0o600)
        line.knock(b"\n%d%d\n" % (os.getpid(), number))


def knocks(line):
    """Tells names of nobody until it is ended, in pieces of which none is a whole number of lines."""
    with open(os.path.join(line.folder, "knock"), "wb", buffering=0) as pipe:
        print("knocks: there", flush=True)
        while True:
            pipe.write(b"123456789\n" * 300 + b"12345")


def flood(line):
    """Asks until there is no room for more, in pipes that have little."""
    for pipe in line.ask, line.tell:
        fcntl.fcntl(pipe, fcntl.F_SETPIPE_SZ, 4096)
    os.set_blocking(line.ask, False)
    quiet = time.monotonic() + 1
    while time.monotonic() < quiet:
        try:
            line.put(POLL, 0, 0, 0)
            quiet = time.monotonic() + 1
        except BlockingIOError:
            time.sleep(0.01)


def many(line):
    """Each request of the list."""
    told = [(words, code) for *words, wanted in ANSWERS if (code := line.code(*words)) != wanted]
    print(*told or [f"{len(ANSWERS)} answered"], sep="\n", flush=True)


def half(line):
    line.put(OPEN, 0, 0, 0, size=40)


KINDS = {"many": many, "wild": wild, "noise": noise, "names": names, "knocks": knocks, "half": half, "stopped": half,
         "flood": flood}  # fmt: skip


def main(kind):
    """Asks badly."""
    if kind == "crowd":
        crowd()
        return
    line = Line()
    if line.code(OPEN, MOST, MOST, MOST):
        sys.exit("no node is free")
    KINDS[kind](line)
    if kind in ("flood", "stopped"):
        print(f"{kind}: there", flush=True)
        os.kill(os.getpid(), signal.SIGSTOP)


if __name__ == "__main__":
    main(sys.argv[1])
