"""Sessions that are made from numbers: test_drawn.py compares the program over them with the second program and the judge.

Session number SEED has a script of random commands of up to eight clients (all calls, wrong arguments, slots, waiting reads; in
every other session writes to the dvr device, of all sizes and also by clients that don't own it) and a random stream (garbage,
broken counters, duplicates, wrong pointers, long sections, errors; in some 16 bytes behind each packet), and is run in batches
of 1 to 64, over packets that take up 188 or 204 bytes.
"""
import random

from . import second

PIDS = [0, 17, 256, 257, 258, 512, 8191]


def section(rng):
    size = rng.choice([0, 1, 5, 9, 20, 60, 183, 184, 400, 1021, 4093]) if rng.random() < 0.9 else rng.randrange(4094)
    body = bytes(rng.choice([0, 1, 0x42, 0xFF, rng.randrange(256)]) for _ in range(size))
    syntax = rng.random() < 0.5
    head = bytes([rng.choice([0, 2, 0x42, 0x4E, 0xFE]), (0x80 if syntax else 0) | 0x30 | size >> 8, size & 0xFF])
    whole = head + body
    if syntax and size >= 4 and rng.random() < 0.8:
        whole = whole[:-4]
        whole += second.crc(whole).to_bytes(4, "big")
    return whole


class Stream:
    """The packets of some PIDs, whose sections go on from packet to packet."""

    def __init__(self, rng, behind):
        self.rng, self.counter, self.open, self.out, self.last, self.behind = rng, {}, {}, bytearray(), None, behind

    def field(self, room):
        """An adaptation field with so many bytes behind its length; now and then with a clock, or with its flag alone."""
        rng = self.rng
        if not room:
            return bytes([0])
        clock = room >= 7 and rng.random() < 0.4
        flags = (0x80 if rng.random() < 0.1 else 0) | (0x10 if clock or rng.random() < 0.05 else 0)
        reference = bytes(rng.choice([0, 0xFF, rng.randrange(256)]) for _ in range(6)) if clock else b""
        return bytes([room, flags]) + reference.ljust(room - 1, b"\xff")

    def packet(self, pid, start, payload, flags):
        rng, counter = self.rng, self.counter.get(pid, self.rng.randrange(16))
        self.counter[pid] = (counter + 1) % 16
        if rng.random() < 0.03:
            counter = rng.randrange(16)
        field = b""
        if len(payload) < 184 or rng.random() < 0.05:
            payload = payload[:183]
            field = self.field(183 - len(payload))
        control = (0x20 if field else 0) | 0x10
        if rng.random() < 0.02:
            control, payload = 0x20, b""
            field = bytes([rng.choice([183, 183, 200, 0])]) + bytes(rng.randrange(256) for _ in range(183))
        head = bytes([0x47, (0x80 if rng.random() < flags else 0) | (0x40 if start else 0) | pid >> 8, pid & 0xFF])
        return (head + bytes([control | counter]) + field + payload).ljust(188, b"\xff")[:188]

    def sections(self, pid):
        """What a packet of a PID with sections carries: whether it has unit start, and its payload."""
        rng, rest = self.rng, self.open.get(pid, b"")
        begins = rng.random() < 0.5 or not rest
        if begins:
            pointer = min(len(rest), rng.choice([0, 0, 182, 183, 255]))
            more = b"".join(section(rng) for _ in range(rng.choice([1, 1, 2, 3])))
            rest = bytes([pointer if rng.random() < 0.95 else rng.randrange(256)]) + rest[:pointer] + more
        payload, self.open[pid] = rest[:184], rest[184:]
        return begins, payload.ljust(184, b"\xff") if rng.random() < 0.8 else payload

    def add(self):
        rng = self.rng
        if self.last and rng.random() < 0.05:
            self.put()
            return
        if rng.random() < 0.02:
            self.out += bytes(rng.randrange(256) for _ in range(rng.choice([1, 7, 187, 188])))
        pid = rng.choice(PIDS)
        if pid < 256 or pid == 512:
            begins, payload = self.sections(pid)
        else:
            begins, payload = rng.random() < 0.2, bytes([rng.randrange(256)]) * rng.choice([184, 184, 184, 100, 1])
        self.last = self.packet(pid, begins, payload, 0.02)
        self.put()

    def put(self):
        """Puts the last packet behind the others, and as many bytes behind it as this stream has there, sync bytes among them."""
        rng = self.rng
        self.out += self.last + bytes(rng.choice([0x47, 0, rng.randrange(256)]) for _ in range(self.behind))


KINDS = 3 * ("open section section pes pes start start start stop stop add remove size size read read readw drain poll "
             "poll").split()
KINDS += ["close"] + ["ioctl"] * 6 + ["stc"] * 6


def request(rng):
    """A request by its number and its argument."""
    pid, flags = rng.choice(PIDS).to_bytes(2, "little"), rng.choice([0, 1, 4, 5, 256])
    pads = rng.choice([bytes(2), bytes([255, 255])])

    def fields(*values):
        return b"".join(value.to_bytes(4, "little") for value in values)

    filters = bytes(rng.choice([0, 0, 0x42, 0xFF]) if i % 16 < 2 else 0 for i in range(48))
    number, argument = rng.choice(
        [(0x6F29, b""), (0x6F2A, b""), (0x403C6F2B, pid + filters + pads + fields(rng.choice([0, 5, 100]), flags)),
         (0x40146F2C, pid + pads + fields(rng.choice([0, 0, 1]), rng.choice([1, 2, 3, 3]), rng.choice([4, 4, 9, 20]), flags)),
         (0x6F2D, fields(rng.choice([190, 1000, 8192, 16777216]))), (0x40026F33, pid), (0x40026F34, pid)]
    )
    return f"{number:08x} {argument.hex() or '-'}"


def command(rng, client):
    mine = ["dvr"] if client == 0 else [f"n{client}"]
    on = rng.choice(mine * 6 + [f"n{client}"] * 6 + ["n0", "n31", "h0", "h0", "h1", "dvr"])
    kind = rng.choice(KINDS)
    head = f"c{client} {kind} {on}"
    if kind == "section":
        pid, flags = rng.choice([*PIDS, 8192]), rng.choice([0, 1, 2, 3, 4, 5, 6, 7, 8, 256, 260, 261, 263, 264])
        bytes_at = "".join(
            f" {i}={rng.choice(['00', '42', 'ff'])}/{rng.choice(['ff', '01', '00'])}/{rng.choice(['00', '00', 'ff'])}"
            for i in sorted(rng.sample(range(16), rng.choice([0, 0, 1, 1, 2, 5])))
        )
        return f"{head} {pid} {rng.choice([0, 0, 1, 5, 100])} {flags}{bytes_at}"
    if kind == "pes":
        pid, output = rng.choice([*PIDS, 8192, 8193]), rng.choice(["tap", "ts_tap", "ts_tap", "tsdemux_tap", "tsdemux_tap",
                                                                   "decoder"])
        source = "dvr" if rng.random() < 0.05 else "frontend"
        kind, flags = rng.choice([0, 1, 4, 4, 9, 20, 21]), rng.choice([0, 4, 4, 3, 8, 256, 260, 260, 512])
        return f"{head} {pid} {source} {output} {kind} {flags}"
    if kind == "ioctl":
        return f"{head} {request(rng)}"
    if kind == "stc":
        counter = rng.choice([0, 0, 0, 1, 4, 2**32 - 1]).to_bytes(4, "little")
        return f"c{client} ioctl {on} c0106f32 {(counter + bytes(rng.choice([0, 255]) for _ in range(12))).hex()}"
    if kind in ("add", "remove"):
        return f"{head} {rng.choice([*PIDS, 8192, 8193])}"
    if kind == "size":
        size = rng.choice([1, 2, 100, 189, 190, 377, 1000, 1000, 8192, 1925120, 16777216, 16777217])
        return f"c{client} stop {on}\n{head} {size}\nc{client} start {on}" if rng.random() < 0.5 else f"{head} {size}"
    if kind in ("read", "readw", "drain"):
        return f"{head} {rng.choice([0, 1, 1, 4, 100, 188, 4096, 65536, rng.randrange(65537)])}"
    return head


WRONG = """c8 open n0|c0|c0 open|c0 open n32|c0 open  n0|feed 0|tick|c0 strat n0|feed 1 1|c0 read n0 65537
c0 section n0 1 0 0 3=00/ff/00 3=00/ff/00|c0 pes n0 1 front tap 0 0|c0 open n01| |Stream|stream |c0 ioctl n0 6f29 -
c0 ioctl n0 800a6f2f x|c0 ioctl n0 00006f29 00|c0 ioctl n0 00006f29 - x|c0 ioctl n0 40026f33 ff1|c0 ioctl n0 40026f33 FF1F
c0 ioctl n0 40146f2c 0001000002000000030000001400000000000000|c0 ioctl n0 00006f29|c0 ioctl n32 6f29
c0 write n0 00|c0 write dvr|c0 write dvr 0|c0 write dvr 0A|c0 write dvr 00 00|c0 write h0 g|c0 write|c0 write dvr """.split("\n")
WRONG = [line for lines in WRONG for line in lines.split("|")] + ["c0 write dvr " + 12033 * "00"]


def with_writes(seed, lines, clients):
    """The lines of a script with writes of packets in pieces between them, most by the client that opens the dvr node, and with
    some filters that take these. In some another client opens that node later."""
    rng = random.Random(-seed)
    made = [line.replace(" frontend ", " dvr ") if " pes " in line and rng.random() < 0.5 else line for line in lines]
    streams = [Stream(rng, 0) for _ in range(clients)]
    more = []
    for _ in range(rng.choice([1, 4, 12, 30])):
        client = rng.choice([0, 0, 0, rng.randrange(clients)])
        stream = streams[client]
        for _ in range(rng.choice([0, 1, 1, 2, 5, 70])):
            stream.add()
        size = min(rng.choice([1, 100, 187, 188, 189, 400, 12032, 12032, rng.randrange(1, 12033)]), len(stream.out))
        piece, stream.out = stream.out[:size], stream.out[size:]
        if piece:
            more.append(f"c{client} write dvr {piece.hex()}")
    if rng.random() < 0.3:
        more[rng.randrange(len(more) + 1) : 0] = ["c0 close dvr", f"c{rng.randrange(clients)} open dvr"]
    places = sorted(rng.randrange(1, len(lines) + 1) for _ in more)
    for place, line in reversed(list(zip(places, more))):
        made.insert(place, line)
    return made


def session(seed):
    """A session, the batch, and what its packets are to take up: of most streams what they do. In every other one clients
    write."""
    rng = random.Random(seed)
    behind = rng.choice([0, 0, 16])
    packet = 188 + behind if rng.random() < 0.9 else rng.choice([188, 204])
    clients, stream = rng.choice([1, 1, 2, 3, 8]), Stream(rng, behind)
    lines = ["c0 open dvr", "c0 open n0"] + [f"c{client} open {rng.choice(['h0', f'n{client}'])}" for client in range(1, clients)]
    if rng.random() < 0.05:
        lines += ["c0 pes n0 0 frontend tsdemux_tap 20 4"] + [f"c0 add n0 {pid}" for pid in range(rng.choice([127, 128, 129]))]
    for _ in range(rng.randrange(60)):
        chance = rng.random()
        if chance < 0.2:
            lines.append(f"feed {rng.choice([1, 1, 2, 3, 7, 64, 200])}")
        elif chance < 0.25:
            lines.append(f"tick {rng.choice([0, 1, 4, 5, 99, 100, 4294967295])}")
        elif chance < 0.27:
            lines.append(rng.choice(["", "# a comment", "#"]))
        else:
            lines.append(command(rng, rng.randrange(clients)))
    if seed % 2:
        lines = with_writes(seed, lines, clients)
    if rng.random() < 0.05:
        lines.insert(rng.randrange(len(lines) + 1), rng.choice(WRONG))
    for _ in range(rng.choice([0, 1, 5, 40, 40, 100])):
        stream.add()
    if rng.random() < 0.2:
        stream.out = stream.out[: rng.randrange(len(stream.out) + 1)]
    end = "stream\n" if rng.random() < 0.98 else rng.choice(["", "stream"])
    made = "".join(line + "\n" for line in lines).encode() + end.encode() + bytes(stream.out)
    return made, rng.choice([1, 1, 2, 7, 63, 64]), packet
