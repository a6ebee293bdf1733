"""Makes streams for tests of `serve`: two services each, with tables of DVB (EN 300 468), events, a clock and a picture, at a
constant rate."""
import datetime

from dvbemu.stream import tables
from dvbemu.stream.packets import NULL_PACKET, PACKET, RANDOM_ACCESS, ROOM, SYNC
from dvbemu.stream.packets import adaptation_field, counter_of, packet, payload_of, pcr_of
from dvbemu.stream.packets import pid_of, section_packets, unit_start
from dvbemu.stream.pace import TICKS, WRAP
from dvbemu.stream.tables import Descriptor, Part, Table

RATE, NETWORK = 1500, 8468
# Where three stations are, and their services.
HERTZ = 474_000_000, 482_000_000, 490_000_000
NAMES = ("Alpha", "Beta"), ("Gamma", "Delta"), ("Epsilon", "Zeta")
# How often a table comes, and how long the picture is, in seconds; and how many events a service has.
PAT, PMT, SDT, NIT, EIT, TDT, PCR, PICTURE, EVENTS = 0.1, 0.2, 0.5, 1.0, 1.0, 1.0, 0.04, 4, 4
# The ticks of a second in the time stamps of a picture, and the places of these in its packets: the first where there is one, the
# second where there are two.
STAMPS, FIRST_STAMP, SECOND_STAMP = 90_000, 9, 14


def now():
    """This moment."""
    return datetime.datetime.now(datetime.timezone.utc)


def texts(*words):
    """Texts, each behind its length."""
    return b"".join(bytes([len(word)]) + word.encode() for word in words)


def stamped(media, at, ticks):
    """A packet whose time stamp at this place is later."""
    one, two, three, four, five = media[at:at + 5]
    stamp = (one & 0x0E) << 29 | two << 22 | (three & 0xFE) << 14 | four << 7 | five >> 1
    stamp = (stamp + ticks) % 2**33
    made = one & 0xF1 | stamp >> 29 & 0x0E, stamp >> 22 & 0xFF, stamp >> 14 & 0xFE | 1, stamp >> 7 & 0xFF, stamp << 1 & 0xFE | 1
    return media[:at] + bytes(made) + media[at + 5:]


def later(media, ticks):
    """A packet of a picture that is shown so much later, and that has no clock of its own."""
    payload = payload_of(media) or b""
    at = PACKET - len(payload)
    if pcr_of(media) is not None:
        media = packet(pid_of(media), counter_of(media), payload, unit_start(media),
                       adaptation_field(at - 4, flags=media[5] & RANDOM_ACCESS))
    if not unit_start(media) or payload[:3] != b"\0\0\1":
        return media
    flags = payload[7] >> 6
    media = stamped(media, at + FIRST_STAMP, ticks) if flags & 2 else media
    return stamped(media, at + SECOND_STAMP, ticks) if flags == 3 else media


class Station:
    """Two services of these names and numbers, in a network at these frequencies in Hz; `media` are packets of PIDs 256 and
    257."""

    def __init__(self, number, names, frequencies, media=b""):
        self.number, self.names, self.frequencies = number, names, frequencies
        packets = (media[at:at + PACKET] for at in range(0, len(media), PACKET))
        self.media = [one for one in packets if pid_of(one) in (256, 257)]
        self.shown = 0
        self.begun = now().replace(minute=0, second=0, microsecond=0)
        self.counters = {}

    def services(self):
        """Each service: its number, name, PID of its PMT, first PID of its parts."""
        for place, name in enumerate(self.names):
            yield 100 * self.number + place + 1, name, 0x1E0 + place, 0x100 + 0x10 * place

    def pat(self):
        programs = [Part({"program_number": sid, "PID": pid}, []) for sid, _, pid, _ in self.services()]
        yield 0, Table(tables.PAT_ID, {"transport_stream_id": 1000 + self.number}, [], programs)

    def pmts(self):
        for sid, _, pid, first in self.services():
            parts = [Part({"stream_type": 2, "PID": first}, []), Part({"stream_type": 3, "PID": first + 1}, [])]
            yield pid, Table(tables.PMT_ID, {"program_number": sid, "PCR_PID": first + 2}, [], parts)

    def sdt(self):
        here = {"EIT_schedule_flag": 1, "EIT_present_following_flag": 1, "running_status": 4}
        parts = [Part({"service_id": sid, **here}, [Descriptor(0x48, b"\1" + texts("dvbemu", name))]) for sid, name, _,
                 _ in self.services()]
        yield 17, Table(tables.SDT_ID, {"transport_stream_id": 1000 + self.number, "original_network_id": NETWORK}, [], parts)

    def nit(self):
        parts = []
        for place, hertz in enumerate(self.frequencies):
            terrestrial = Descriptor(0x5A, (hertz // 10).to_bytes(4, "big") + bytes.fromhex("1fb240ffffffff"))
            parts.append(Part({"transport_stream_id": 1001 + place, "original_network_id": NETWORK}, [terrestrial]))
        yield 16, Table(tables.NIT_ID, {"network_id": NETWORK}, [Descriptor(0x40, b"Trial")], parts)

    def event(self, sid, name, number):
        """An event of an hour: its number, name and text."""
        begins = self.begun + datetime.timedelta(hours=number)
        numbers = {"event_id": 100 * sid + number, "start_time": tables.moment(begins), "duration": 0x010000}
        text = b"eng" + texts(f"{name} {number}", f"Text {number} of {name}")
        return Part({**numbers, "running_status": 4 if number == 0 else 1}, [Descriptor(0x4D, text)])

    def eits(self):
        here = {"transport_stream_id": 1000 + self.number, "original_network_id": NETWORK}
        for sid, name, _, _ in self.services():
            for table, numbers, place, last in ((0x4E, [0], 0, 1), (0x4E, [1], 1, 1), (0x50, range(EVENTS), 0, 0)):
                places = {"section_number": place, "last_section_number": last, "segment_last_section_number": last,
                          "last_table_id": table}
                yield 18, Table(table, {"service_id": sid, **here, **places}, [],
                                [self.event(sid, name, number) for number in numbers])

    def tdt(self):
        yield 20, Table(tables.TDT_ID, {"UTC_time": tables.moment(now())}, [], [])

    def packets_of(self, pid, table):
        """The packets of a table, which go on behind the last ones of their PID."""
        found = section_packets(pid, tables.made(table), self.counters.get(pid, 15) + 1)
        self.counters[pid] = counter_of(found[-1])
        return found

    def clocks(self, place):
        """A packet with the clock for each service."""
        field = adaptation_field(ROOM, place * TICKS // RATE % WRAP)
        for _, _, _, first in self.services():
            yield packet(first + 2, 0, field=field)

    def picture(self, place):
        """The packets of the picture and the tone that are due, for both services; they go round with later times."""
        while self.media and self.shown / len(self.media) * PICTURE * RATE <= place:
            rounds, at = divmod(self.shown, len(self.media))
            media = later(self.media[at], rounds * PICTURE * STAMPS)
            for offset in 0, 0x10:
                pid = pid_of(media) + offset
                counter = self.counters.get(pid, 15) + (media[3] >> 4 & 1) & 15
                self.counters[pid] = counter
                yield bytes([SYNC, media[1] & 0x40 | pid >> 8, pid & 0xFF, media[3] & 0x30 | counter]) + media[4:]
            self.shown += 1

    def due(self, place):
        """What is due at this place of the stream."""
        if place % int(PCR * RATE) == 0:
            yield from self.clocks(place)
        for period, table in (PAT, self.pat), (PMT, self.pmts), (SDT, self.sdt), (NIT,
                                                                                  self.nit), (EIT, self.eits), (TDT, self.tdt):
            if place % int(period * RATE) == 0:
                for pid, one in table():
                    yield from self.packets_of(pid, one)
        yield from self.picture(place)

    def stream(self, seconds):
        """So many seconds of it."""
        waiting, found = [], []
        for place in range(int(seconds * RATE)):
            waiting += self.due(place)
            found.append(waiting.pop(0) if waiting else NULL_PACKET)
        return b"".join(found)
