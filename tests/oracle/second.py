"""A plain second program: the report of a session, worked out from the rules of docs/BEHAVIOUR.md and nothing else.

It shares no code with dvbemu and isn't proved. It keeps whole lists, works out all sections of a capture anew at each pass,
and is slow; test_drawn.py and test_sessions.py compare dvbemu with it.
"""
import re

ALL_PACKETS = 0x2000
NODES, DVR, CLIENTS = 32, 32, 8
SCRIPT_MOST = 1048576
LARGEST_READ, LARGEST_WRITE = 65536, 12032
LARGEST_SIZE = 16777216
KEEP = 256
OUTPUTS = ["decoder", "tap", "ts_tap", "tsdemux_tap"]

# ------ the stream


# RULES: 75b16f0a The stream
def cut(stream, size=188):
    """Packets, each of which takes up so many bytes; skipped bytes; rest."""
    packets, skipped, place = [], 0, 0
    while place < len(stream):
        if stream[place] != 0x47:
            skipped += 1
            place += 1
        elif len(stream) - place >= size:
            packets.append(stream[place : place + 188])
            place += size
        else:
            return packets, skipped, len(stream) - place
    return packets, skipped, 0


def pid_of(packet):
    return (packet[1] & 0x1F) << 8 | packet[2]


def error_bit(packet):
    return packet[1] >> 7 & 1 == 1


def unit_start(packet):
    return packet[1] >> 6 & 1 == 1


def counter_of(packet):
    return packet[3] & 0x0F


def discontinuity(packet):
    return packet[3] >> 5 & 1 == 1 and packet[4] > 0 and packet[5] >> 7 & 1 == 1


def payload_of(packet):
    """The payload, or None."""
    first = 5 + packet[4] if packet[3] >> 5 & 1 else 4
    return packet[first:] if packet[3] >> 4 & 1 and first < 188 else None


def clock_reference(packet):
    """The program clock reference, in units of 27 MHz, or None."""
    if not packet[3] >> 5 & 1 or packet[4] < 7 or not packet[5] >> 4 & 1:
        return None
    return (int.from_bytes(packet[6:11], "big") >> 7) * 300 + ((packet[10] & 1) << 8 | packet[11])


def clean(packets, pid):
    """The clean packets of a PID, and how many were left out as duplicates."""
    kept, duplicates = [], 0
    for packet in packets:
        if pid_of(packet) != pid or error_bit(packet) or payload_of(packet) is None:
            continue
        if kept and counter_of(kept[-1]) == counter_of(packet) and payload_of(kept[-1]) == payload_of(packet):
            duplicates += 1
        else:
            kept.append(packet)
    return kept, duplicates


# RULES: 71e4e4b1 Sections
def joins(before, packet):
    return counter_of(packet) == (counter_of(before) + 1) % 16 and not discontinuity(packet)


def runs(packets):
    found = []
    for packet in packets:
        if found and joins(found[-1][-1], packet):
            found[-1].append(packet)
        else:
            found.append([packet])
    return found


def segments(run):
    found, begun = [], None
    for packet in run:
        payload = payload_of(packet)
        if not unit_start(packet):
            if begun is not None:
                begun += payload
            continue
        pointer = payload[0]
        fits = 1 + pointer <= len(payload)
        if begun is not None:
            found.append(begun + (payload[1 : 1 + pointer] if fits else b""))
        begun = payload[1 + pointer :] if fits else None
    return found + ([begun] if begun is not None else [])


def read_sections(segment):
    found = []
    while segment and segment[0] != 0xFF and len(segment) >= 3:
        length = (segment[1] & 0x0F) << 8 | segment[2]
        if length > 4093 or 3 + length > len(segment):
            break
        found.append(segment[: 3 + length])
        segment = segment[3 + length :]
    return found


def sections(packets, pid):
    return [s for run in runs(clean(packets, pid)[0]) for segment in segments(run) for s in read_sections(segment)]


def crc(data):
    register = 0xFFFFFFFF
    for byte in data:
        register ^= byte << 24
        for _ in range(8):
            register = (register << 1 ^ (0x04C11DB7 if register >> 31 else 0)) & 0xFFFFFFFF
    return register


def matches(places, section):
    """Filter, mask and mode bytes by their place."""
    negative, differs = False, False
    for place, (value, mask, mode) in places.items():
        if mask == 0:
            continue
        at = place if place == 0 else place + 2
        if at >= len(section):
            return False
        difference = (value ^ section[at]) & mask
        if difference & ~mode:
            return False
        negative = negative or mask & mode != 0
        differs = differs or difference & mode != 0
    return differs or not negative


# ------ the nodes


# RULES: 08aef95b Captures
# RULES: 74fb14d2 The ledger
class Capture:
    def __init__(self, moment):
        self.started, self.stopped, self.expired, self.told = moment, False, None, False
        self.offered, self.items, self.total, self.answered = [], [], 0, 0
        self.over, self.lost_from = None, 0


# RULES: 6b0e27a0 A demux node
class Node:
    """What a demux node and the dvr node have in common."""

    def __init__(self):
        self.owner, self.size, self.capture, self.ended, self.entries = None, 0, None, False, []

    def arrive(self, items):
        capture = self.capture
        for item in items:
            room = self.size - 1 - (capture.total - capture.answered)
            if capture.over is None and len(item) > room:
                capture.over, capture.lost_from = (len(capture.items), len(item), room), capture.total
            capture.items.append(item)
            capture.total += len(item)

    # RULES: c5ce0eee What is dropped
    def drop(self):
        """The span that a call drops, as its reply names it."""
        capture, self.capture = self.capture, None
        return (capture.answered, capture.total) if capture else (0, 0)

    def by_sections(self):
        return False

    def rest_of_section(self):
        end = 0
        for item in self.capture.items:
            end += len(item)
            if end > self.capture.answered:
                return end - self.capture.answered
        return 0

    def keeps(self):
        return False

    def edge(self):
        """The place up to which reads give bytes."""
        capture = self.capture
        if capture.over is None:
            return capture.total
        return capture.lost_from if self.keeps() else capture.answered

    def tells_overflow(self):
        return self.capture.over is not None and self.capture.answered == self.edge()

    def is_untold(self):
        return self.capture.expired is not None and not self.capture.told

    # RULES: 885fe001 Read
    def read(self, count, timeout):
        capture = self.capture
        if capture is None:
            return "data -"
        total, answered = capture.total, capture.answered
        if self.tells_overflow():
            item, need, room = capture.over
            capture.over, capture.answered = None, total
            return f"overflow {answered}..{total} item={item} need={need} room={room}"
        if self.is_untold():
            capture.told = True
            return f"timedout started={capture.started} now={capture.expired} timeout={timeout}"
        if count == 0:
            return "data -"
        if answered == total:
            return f"again ended={int(self.ended)}"
        most = min(count, self.edge() - answered)
        if self.by_sections():
            most = min(most, self.rest_of_section())
        capture.answered += most
        return "data " + self.bytes_between(answered, answered + most).hex()

    def bytes_between(self, first, after):
        return b"".join(self.capture.items)[first:after]

    # RULES: 908bbc6a Poll
    def poll(self):
        capture = self.capture
        if capture is None:
            return f"ready readable=0 error=none at=0 ended={int(self.ended)}"
        error = "overflow" if self.tells_overflow() else "timedout" if self.is_untold() else "none"
        readable = error != "none" or capture.total > capture.answered
        return f"ready readable={int(readable)} error={error} at={capture.answered} ended={int(self.ended)}"


def done(span, tap="keep"):
    return f"done drop={span[0]}..{span[1]} tap={tap}"


def pids_text(pids):
    return ",".join(map(str, sorted(pids))) or "-"


class Demux(Node):
    def __init__(self):
        super().__init__()
        self.filter, self.pids, self.flags = None, set(), 0

    def keeps(self):
        return self.flags & KEEP != 0

    def by_sections(self):
        return self.filter[0] == "section"

    def timeout(self):
        return self.filter[3] if self.filter and self.filter[0] == "section" else 0

    def is_one_shot(self):
        return self.filter[0] == "section" and self.filter[4] & 2 != 0

    # RULES: d2b4a96a States
    def state(self):
        if self.owner is None:
            return "Free"
        if self.filter is None:
            return "Allocated"
        if self.capture is None or self.capture.stopped:
            return "Set"
        if self.capture.expired is not None:
            return "TimedOut"
        if self.is_one_shot() and self.capture.items:
            return "Done"
        return "Go"

    # RULES: 6be045e1 The tap
    def records(self):
        return self.state() == "Go" and self.filter[0] == "pes" and self.filter[3] == "ts_tap"

    # RULES: 0eb7db2e Timeouts
    def expire(self, moment):
        if self.timeout() and self.state() == "Go" and not self.capture.items:
            if moment >= self.capture.started + self.timeout():
                self.capture.expired = moment

    def lets_through(self, section):
        _, _, places, _, flags = self.filter
        return matches(places, section) and (not flags & 1 or section[1] >> 7 == 0 or crc(section) == 0)

    def selected(self):
        found = [s for s in sections(self.capture.offered, self.filter[1]) if self.lets_through(s)]
        return found[:1] if self.is_one_shot() else found

    def source(self):
        return self.filter[2] if self.filter[0] == "pes" else "frontend"

    def run_pass(self, packets, moment, source="frontend"):
        self.expire(moment)
        if self.state() != "Go" or source != self.source():
            return
        if self.filter[0] == "section":
            self.capture.offered += [packet for packet in packets if pid_of(packet) == self.filter[1]]
            self.arrive(self.selected()[len(self.capture.items) :])
            return
        for packet in packets:
            if ALL_PACKETS not in self.pids and pid_of(packet) not in self.pids:
                continue
            if self.filter[3] == "tsdemux_tap":
                self.arrive([packet])
            elif self.filter[3] == "tap" and payload_of(packet) is not None:
                self.arrive([payload_of(packet)])

    # RULES: 0b51dcd9 Refusals
    def refused(self, who, act):
        """The refusals, in their order; act is a name and its arguments."""
        name, args = act[0], act[1:]
        if self.owner is None or self.owner != who:
            return "EBADF"
        if name == "section":
            pid, _, _, flags = args
            if pid > 0x1FFF or flags & ~(7 | KEEP):
                return "EINVAL"
        elif name == "pes":
            pid, source, output, kind, flags = args
            records_played = source == "dvr" and output == "ts_tap"
            if pid > 0x2000 or records_played or output == "decoder" or kind > 20 or flags & ~(7 | KEEP):
                return "EINVAL"
        elif name in ("add", "remove"):
            if args[0] > 0x2000 or self.filter is None or self.filter[0] != "pes":
                return "EINVAL"
            if name == "add" and args[0] not in self.pids:
                if self.filter[3] != "tsdemux_tap" and self.pids:
                    return "EINVAL"
                if len(self.pids) >= 128:
                    return "ENOSPC"
        elif name == "start" and self.filter is None:
            return "EINVAL"
        elif name == "size":
            if not 2 <= args[0] <= LARGEST_SIZE:
                return "EINVAL"
            if args[0] != self.size and self.state() in ("Go", "Done", "TimedOut"):
                return "EBUSY"
        return None

    # RULES: 79f5bcf6 Calls
    def call(self, who, act, moment):
        name, args = act[0], act[1:]
        if name == "open":
            if self.owner is not None:
                return f"busy owner=c{self.owner}"
            self.owner, self.size, self.filter, self.pids, self.capture = who, 8192, None, set(), None
            return done((0, 0))
        refusal = self.refused(who, act)
        if refusal:
            return refusal
        if name in ("read", "poll"):
            self.expire(moment)
            return self.read(args[0], self.timeout()) if name == "read" else self.poll()
        recorded, changed, span = self.records(), True, (0, 0)
        if name == "close":
            span, self.owner, self.filter = self.drop(), None, None
        elif name in ("section", "pes"):
            span = self.drop()
            if name == "section":
                self.filter = ("section", args[0], args[1], args[2], args[3])
                flags = args[3]
            else:
                self.filter = ("pes", args[0], args[1], args[2], args[3])
                flags = args[4]
            self.pids, self.flags = {args[0]}, flags
            if flags & 4:
                self.capture = Capture(moment)
        elif name == "start":
            span = self.drop()
            self.capture = Capture(moment)
        elif name == "stop":
            changed = False
            if self.capture:
                self.capture.stopped = True
        elif name == "size":
            changed = False
            if args[0] != self.size:
                span, self.size = self.drop(), args[0]
        elif name == "add":
            changed = args[0] not in self.pids
            self.pids = self.pids | {args[0]}
        elif name == "remove":
            changed = args[0] in self.pids
            self.pids = self.pids - {args[0]}
        if self.records() and changed:
            return done(span, "attach:" + pids_text(self.pids))
        return done(span, "detach" if recorded and not self.records() else "keep")


# RULES: 558c6381 The dvr node
class Dvr(Node):
    def __init__(self):
        super().__init__()
        self.taps = {}

    def run_pass(self, packets, _moment, source="frontend"):
        if self.owner is None or source != "frontend":
            return
        named = set().union(*(pids for pids, _ in self.taps.values())) if self.taps else set()
        self.arrive([p for p in packets if ALL_PACKETS in named or pid_of(p) in named])

    def call(self, who, act, _moment):
        name, args = act[0], act[1:]
        if name == "attach":
            self.taps[args[0]] = (set(args[1]), who)
            return done((0, 0))
        if name == "detach":
            if args[0] in self.taps and self.taps[args[0]][1] == who:
                del self.taps[args[0]]
            return done((0, 0))
        if name == "open":
            if self.owner is not None:
                return f"busy owner=c{self.owner}"
            self.owner, self.size, self.capture = who, 1925120, Capture(0)
            return done((0, 0))
        if self.owner != who:
            return "EBADF"
        if name == "close":
            self.owner = None
            return done(self.drop())
        if name == "size":
            if not 2 <= args[0] <= LARGEST_SIZE:
                return "EINVAL"
            if args[0] == self.size:
                return done((0, 0))
            span, self.size = self.drop(), args[0]
            self.capture = Capture(0)
            return done(span)
        if name == "read":
            return self.read(args[0], 0)
        return self.poll() if name == "poll" else "EINVAL"


# ------ the script


class Fault(Exception):
    def __init__(self, line, kind):
        super().__init__(f"script line {line}: {kind}")
        self.line, self.kind = line, kind


class Wrong(Exception):
    pass


def number(word, least, most):
    if not re.fullmatch(rb"0|[1-9][0-9]*", word) or not least <= int(word) <= most:
        raise Wrong("number")
    return int(word)


def target(word):
    match = re.fullmatch(rb"dvr|([nh])(0|[1-9][0-9]?)", word)
    if not match or (match[2] and int(match[2]) > 31):
        raise Wrong("target")
    return "dvr" if word == b"dvr" else (match[1].decode(), int(match[2]))


def name(word, names):
    if word.decode("latin-1") not in names:
        raise Wrong("name")
    return word.decode()


def filter_byte(word, above):
    match = re.fullmatch(rb"(0|[1-9][0-9]?)=([0-9a-f]{2})/([0-9a-f]{2})/([0-9a-f]{2})", word)
    if not match or not above < int(match[1]) <= 15:
        raise Wrong("bytes")
    return int(match[1]), tuple(int(match[k], 16) for k in (2, 3, 4))


U32 = 4294967295
PLACES = {
    "open": [], "close": [], "start": [], "stop": [], "poll": [], "section": [(0, 65535), (0, U32), (0, U32)],
    "pes": [(0, 65535), ["frontend", "dvr"], OUTPUTS, (0, U32), (0, U32)], "add": [(0, 65535)], "remove": [(0, 65535)],
    "size": [(0, U32)], "read": [(0, LARGEST_READ)], "readw": [(0, LARGEST_READ)], "drain": [(0, LARGEST_READ)],
}  # fmt: skip


# The command of each request and how many bytes its argument has, by its number.
REQUESTS = {
    0x6F29: ("start", 0), 0x6F2A: ("stop", 0), 0x403C6F2B: ("section", 60), 0x40146F2C: ("pes", 20),
    0x6F2D: ("size", 4), 0xC0106F32: ("stc", 16), 0x40026F33: ("add", 2), 0x40026F34: ("remove", 2),
}  # fmt: skip


def take(words):
    if not words:
        raise Wrong("count")
    return words.pop(0)


# RULES: 8a47f4bd Requests by their numbers
def read_request(words):
    """The command that a request is, with its arguments."""
    word = take(words)
    if not re.fullmatch(rb"[0-9a-f]{8}", word):
        raise Wrong("number")
    if int(word, 16) not in REQUESTS:
        raise Wrong("name")
    command, length = REQUESTS[int(word, 16)]
    word = take(words)
    if not re.fullmatch(rb"-|([0-9a-f]{2}){1,60}", word):
        raise Wrong("bytes")
    argument = bytes.fromhex(word.decode()) if word != b"-" else b""
    if len(argument) != length:
        raise Wrong("bytes")

    def field(place, size):
        return int.from_bytes(argument[place : place + size], "little")

    if command == "section":
        return command, [field(0, 2), {i: (argument[2 + i], argument[18 + i], argument[34 + i]) for i in range(16)}, field(52, 4),
                         field(56, 4)]
    if command == "pes":
        source, output = field(4, 4), field(8, 4)
        if source > 1 or output > 3:
            raise Wrong("name")
        return command, [field(0, 2), ["frontend", "dvr"][source], OUTPUTS[output], field(12, 4), field(16, 4)]
    return command, [field(0, min(length, 4))] if length else []


def written(word):
    """The bytes of a write."""
    if not re.fullmatch(rb"([0-9a-f]{2})+", word) or len(word) > 2 * LARGEST_WRITE:
        raise Wrong("bytes")
    return bytes.fromhex(word.decode())


def read_arguments(command, words):
    """What a command has behind its target."""
    if command == "write":
        return [written(take(words))]
    args = []
    for place in PLACES[command]:
        word = take(words)
        args.append(number(word, *place) if isinstance(place, tuple) else name(word, place))
    if command != "section":
        return args
    places, above = {}, -1
    while words and len(places) < 16:
        above, values = filter_byte(words.pop(0), above)
        places[above] = values
    return [args[0], places, args[1], args[2]]


# RULES: a0693fb5 The script
def read_line(line):
    words = line.split(b" ")
    first = words.pop(0)
    if first in (b"feed", b"tick"):
        asked = (first.decode(), number(take(words), 1 if first == b"feed" else 0, U32))
    elif re.fullmatch(rb"c[0-7]", first):
        command = take(words).decode("latin-1")
        if command not in PLACES and command not in ("ioctl", "write"):
            raise Wrong("command")
        on = target(take(words))
        if command == "write" and on != "dvr":
            raise Wrong("target")
        command, args = read_request(words) if command == "ioctl" else (command, read_arguments(command, words))
        asked = (command, int(first[1:]), on, args)
    else:
        raise Wrong("client")
    if words:
        raise Wrong("count")
    return asked


def read_script(session):
    """The lines with their numbers, and the stream; or the first fault."""
    lines, place, line_number = [], 0, 1
    examined = session[:SCRIPT_MOST]
    while True:
        end = examined.find(b"\n", place)
        if end < 0:
            raise Fault(line_number, "nostream")
        line = examined[place:end]
        place = end + 1
        if line == b"stream":
            return lines, session[place:]
        if line and not line.startswith(b"#"):
            try:
                lines.append((line_number, read_line(line)))
            except Wrong as wrong:
                raise Fault(line_number, str(wrong)) from None
        line_number += 1


# ------ the run


def filter_text(places):
    return "".join(f" {i}={v:02x}/{m:02x}/{d:02x}" for i, (v, m, d) in sorted(places.items()) if v or m or d)


def act_text(act, moment):
    kind, args = act[0], act[1:]
    if kind == "section":
        return f"section pid={args[0]} timeout={args[2]} flags={args[3]} at={moment}" + filter_text(args[1])
    if kind == "pes":
        return f"pes pid={args[0]} input={args[1]} output={args[2]} type={args[3]} flags={args[4]} at={moment}"
    if kind in ("start", "poll"):
        return f"{kind} at={moment}"
    if kind == "read":
        return f"read {args[0]} at={moment}"
    if kind == "attach":
        return f"attach node={args[0]} pids={pids_text(args[1])}"
    if kind == "detach":
        return f"detach node={args[0]}"
    if kind == "pass":
        return f"pass input={args[0]} first={args[1]} count={args[2]} at={moment}"
    return " ".join([kind, *map(str, args)])


# RULES: 35bedcfc What a client writes
class Played:
    """What a client writes: the packets of the bytes of all its writes, and for each write the number of the first that it
    completes, and how many these are."""

    def __init__(self, writes):
        self.packets = cut(b"".join(writes))[0]
        whole = [len(cut(b"".join(writes[:count]))[0]) for count in range(len(writes) + 1)]
        self.batches = [(first, behind - first) for first, behind in zip(whole, whole[1:])]


def reply_of(node, client, act, moment, played):
    """The reply of a node to a call of a client; a pass brings packets that the client has written."""
    if act[0] != "pass":
        return node.call(client, act, moment)
    _, source, first, count = act
    node.run_pass(played[client].packets[first : first + count], moment, source)
    return "passed"


def played_by(lines):
    """What each client writes."""
    writes = [(asked[1], asked[3][0]) for _, asked in lines if asked[0] == "write"]
    return [Played([data for who, data in writes if who == client]) for client in range(CLIENTS)]


# RULES: f5f5c270 The order of `steps`
class Run:
    def __init__(self, lines, packets, batch):
        self.played, self.written = played_by(lines), [0] * CLIENTS
        self.lines, self.packets, self.batch = lines, packets, batch
        self.nodes = [Demux() for _ in range(NODES)] + [Dvr()]
        self.given, self.turns, self.moment, self.has_ended = 0, 0, 0, False
        self.steps, self.slots = [0] * CLIENTS, [{} for _ in range(CLIENTS)]
        self.clocks = {}
        clients = [asked[1] for _, asked in lines if asked[0] not in ("feed", "tick")]
        self.outcomes = [[] for _ in range(max(clients, default=-1) + 1)]

    def tell_all(self, text, to):
        for node in self.nodes:
            to(node)
            node.entries.append(("feed", self.turns, text, "passed"))
        self.turns += 1

    def run_pass(self, most):
        """Passes at most so many packets, or End where none is left; answers how many passed."""
        packets = self.packets[self.given : self.given + min(most, self.batch)]
        if packets:
            text = f"pass input=frontend first={self.given} count={len(packets)} at={self.moment}"
            self.tell_all(text, lambda node: node.run_pass(packets, self.moment))
            self.given += len(packets)
        elif not self.has_ended:
            self.tell_all("end", lambda node: setattr(node, "ended", True))
            self.has_ended = True
        return len(packets)

    def feed(self, count):
        while count > 0:
            passed = self.run_pass(count)
            if passed == 0:
                return
            count -= passed

    def event(self, client, node, act):
        reply = reply_of(self.nodes[node], client, act, self.moment, self.played)
        self.nodes[node].entries.append((f"c{client}", self.steps[client], act_text(act, self.moment), reply))
        self.steps[client] += 1
        return reply

    def made(self, client, node, act):
        """A call of a client, whose reply counts for the counters that it asks for."""
        reply = self.event(client, node, act)
        self.follow(client, node, act, reply)
        return reply

    # RULES: 8885a5c1 System time counters
    def follow(self, client, node, act, reply):
        """What the client has read on the node, and the type of its filter there, once it has this reply."""
        read, kind = self.clocks.get((client, node), (bytearray(), None))
        if reply.startswith("data ") and reply != "data -":
            read += bytes.fromhex(reply[5:])
        elif reply.startswith("overflow "):
            read = bytearray()
        elif reply.startswith("done "):
            if act[0] in ("open", "close", "section", "pes", "start", "size"):
                read = bytearray()
            if act[0] in ("section", "pes"):
                kind = act[4] if act[0] == "pes" and act[3] == "tsdemux_tap" else None
        self.clocks[client, node] = read, kind

    def counter(self, client, node, of):
        read, kind = self.clocks.get((client, node), (bytearray(), None))
        clocks = [clock_reference(packet) for packet in cut(bytes(read))[0]] if of <= 3 and kind == 4 + 5 * of else []
        clocks = [clock for clock in clocks if clock is not None]
        return f"stc base=300 value={clocks[-1]}" if clocks else "nostc"

    def tap(self, client, node, reply):
        match = re.fullmatch(r"done drop=\d+\.\.\d+ tap=(attach:(.*)|detach)", reply)
        if node != DVR and match:
            if match[2] is None:
                self.made(client, DVR, ("detach", node))
            else:
                pids = [] if match[2] == "-" else list(map(int, match[2].split(",")))
                self.made(client, DVR, ("attach", node, pids))

    def open_slot(self, client, slot):
        for node in range(NODES):
            reply = self.made(client, node, ("open",))
            if not reply.startswith("busy"):
                if reply.startswith("done"):
                    self.slots[client][slot] = node
                    self.tap(client, node, reply)
                return "done"
        return "EMFILE"

    def read_on(self, client, node, count, ends):
        while True:
            reply = self.made(client, node, ("read", count))
            if ends(reply):
                return
            if reply == "again ended=0":
                self.run_pass(self.batch)

    def write(self, client):
        """The client's next write: where the dvr node is its own, the packets that it completes pass the demux nodes."""
        first, count = self.played[client].batches[self.written[client]]
        self.written[client] += 1
        if self.made(client, DVR, ("poll",)).startswith("ready") and count:
            for node in range(NODES):
                self.made(client, node, ("pass", "dvr", first, count))
        return "done"

    # RULES: 5631a3b1 What a client's commands do
    def command(self, asked):
        verb, client, on, args = asked
        if verb == "write":
            return self.write(client)
        if on == "dvr":
            node = DVR
        elif on[0] == "n":
            node = on[1]
        elif verb == "open":
            return self.open_slot(client, on[1])
        elif on[1] not in self.slots[client]:
            return "unbound"
        else:
            node = self.slots[client][on[1]]
        if verb == "stc":
            return self.counter(client, node, args[0])
        if verb == "readw":
            self.read_on(client, node, args[0], lambda reply: reply != "again ended=0")
        elif verb == "drain":
            ends = ("again ended=1", "data -")
            self.read_on(client, node, args[0], lambda r: r in ends or r.startswith("timedout") or r.startswith("E"))
        else:
            self.tap(client, node, self.made(client, node, (verb, *args)))
        return "done"

    def run(self):
        for line, asked in self.lines:
            if asked[0] == "feed":
                self.feed(asked[1])
            elif asked[0] == "tick":
                self.moment += asked[1]
            else:
                first = self.steps[asked[1]]
                outcome = self.command(asked)
                self.outcomes[asked[1]].append(f"line {line} steps {first}..{self.steps[asked[1]]} {outcome}")
        while self.run_pass(self.batch):
            pass


# RULES: 3f2e6921 The report
def pid_rows(packets):
    rows, by_pid = [], {}
    for packet in packets:
        by_pid.setdefault(pid_of(packet), []).append(packet)
    for pid, mine in sorted(by_pid.items()):
        kept, duplicates = clean(mine, pid)
        breaks = sum(not joins(before, packet) for before, packet in zip(kept, kept[1:]))
        if pid == 8191:
            breaks = duplicates = 0
        errors = sum(map(error_bit, mine))
        rows.append(f"pid {pid} packets={len(mine)} breaks={breaks} duplicates={duplicates} errors={errors}")
    return rows


def run_of(session, batch, packet=188):
    """The run of a session's `steps`, and what was cut of its stream. Raises Fault where its script has one."""
    lines, stream = read_script(session)
    packets, skipped, rest = cut(stream, packet)
    run = Run(lines, packets, batch)
    run.run()
    return run, packets, skipped, rest


def report(session, batch, packet=188):
    """The report of a session's `steps`, as text."""
    run, packets, skipped, rest = run_of(session, batch, packet)
    text = ["dvbemu 1", f"packets={len(packets)} skipped={skipped} rest={rest}", *pid_rows(packets)]
    for client, outcomes in enumerate(run.outcomes):
        text += [f"client {client}", *outcomes]
    for number_of, node in enumerate(run.nodes):
        if any(who != "feed" for who, _, _, _ in node.entries):
            text.append("node dvr" if number_of == DVR else f"node {number_of}")
            text += [f"{place} {who} {step} {act} = {reply}" for place, (who, step, act, reply) in enumerate(node.entries)]
    return "\n".join([*text, "end"]) + "\n"


def bytes_read(node):
    return sum(len(reply[5:]) // 2 for _, _, _, reply in node.entries if reply.startswith("data ") and reply != "data -")


# RULES: 00fda27d The line of sums
def sums(session, batch):
    """The sums of the same run in one line."""
    run, packets, _, _ = run_of(session, batch)
    entries = sum(len(node.entries) for node in run.nodes)
    overflows = sum(reply.startswith("overflow ") for node in run.nodes for _, _, _, reply in node.entries)
    demux = sum(map(bytes_read, run.nodes[:DVR]))
    return f"packets={len(packets)} entries={entries} demux={demux} dvr={bytes_read(run.nodes[DVR])} overflows={overflows}\n"
