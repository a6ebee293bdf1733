"""Tables that are right in form, with the descriptors of ISO/IEC 13818-1, 2.6, and of ETSI EN 300 468, clause 6, where they may
stand."""
from __future__ import annotations

import datetime
from typing import TYPE_CHECKING, NamedTuple

from ..stream.tables import BAT_ID, CAT_ID, EIT_ID, NIT_ID, PAT_ID, PMT_ID, SCHEDULE_ID, SDT_ID, TDT_ID, TOT_ID
from ..stream.tables import Descriptor, Part, Table, made, moment

if TYPE_CHECKING:
    from typing import Callable, Iterable, Sequence

# A descriptor of each tag, right in form: its tag, the tables where it may stand (EN 300 468, table 12), and the bytes behind its
# length. The tables are N(IT), B(AT), S(DT), E(IT), T(OT) and P(MT). Of the tag 7F there is one for each
# descriptor_tag_extension.
ROWS = """
02 P 18485f; 03 P 6f; 04 P f1c0c0c1; 05 P 48444d56; 06 P 02; 07 P 0b409003; 08 P 00000000; 09 P 0b00e1f4; 0a P 64657500; 0b P
401f; 0c P 80018010; 0d P 00000001; 0e P c07530; 0f P 00000028; 10 P c00400c00400; 11 P ff; 12 P 400c; 1b P 01; 1c P 58; 28 P
4d40283f; 2a P 7e1f; 2b P 580200; 38 P 0160000000b000000000007800; 40 N 4e657431; 41 NB 010101010219; 42 NBSE 0000; 43 N
0113620001928602200003; 44 N 03460000fff2050069000f; 45 P 0101e7; 46 P 6465750800; 47 BS 426f7571756574; 48 S 010354776f034f6e65;
49 BS ff646575; 4a NBSE 12340001010105; 4a NBSE 123400010101081e00020101; 4a NBSE 123400010101090600015af1e000; 4a NBSE
1234000101010d0007ff; 4b S 123400010102; 4c S 0101; 4d E 656e670446696c6d03416e64; 4e E
00656e670c054163746f7205536d6974680454657874; 4f E 01010007; 50 SE f10301656e67506963; 51 SP 9903f901c002000112340101; 52 P 01; 53
BSE 0b00; 54 E 1100; 55 E 44455509; 56 P 6465750900; 57 SE e1a9933439333133313233; 58 T 444555020100ef8d0100000200; 59 P
656e671000010001; 5a N 02d344401f810affffffff; 5b N 656e67044e657431; 5c B 656e6704426f7571; 5d S 656e670354776f034f6e65; 5e E
01656e6703506963; 5f NBSEP 00000028; 60 P 000112340102; 61 E 49; 62 N ff02d3444002ebae40; 63 P c07530ffffffffff; 64 SE
000601020102656e6703506963; 65 P 02; 66 P 000601; 67 P 44534e47; 68 P 44534e47; 69 E f0a345; 6a P 8042; 6b P 40; 6c N
000140001000010010080140001000010010; 6d N 000102d34440050102d34440; 6e S 00042900011234010101; 6f P 8010e1; 70 P 01; 71 S
302e312e6f6e65; 72 S ff0001; 73 NBS 612e7476; 74 P; 75 E 0001fc; 76 E 04042f6f6e65; 77 N 981000; 78 P 0b000064; 79 N fffc000101;
7a P 8042; 7b P 8630bf8c40; 7c P 588001; 7d B 0001010108; 7e NBSE 81; 7f N 040100010328000102d3444000; 7f N 050f; 7f P 0687656e67;
7f N 07000100; 7f NBSE 0801656e674d7367; 7f NBS 09444555f901; 7f NBS 0a444555656e67444369747901; 7f S 0b000112340101; 7f P 0ce100;
7f N 0d010102d3444000; 7f P 0f01; 7f P 100003001001; 7f P 11f8f8fe; 7f P 13010468747470; 7f P 158020
"""
TIME = moment(datetime.datetime(2026, 1, 1, 12, 0, 0))
TRANSPORT, NETWORK = 4660, 1
SERVICE = {"transport_stream_id": TRANSPORT, "original_network_id": NETWORK}


class Right(NamedTuple):
    """A descriptor that is right in form, and the tables where it may stand."""

    tables: str
    descriptor: Descriptor


class Program(NamedTuple):
    """A program: its number, the PID of its PMT, and its streams, which are their stream_type and PID."""

    number: int
    pid: int
    streams: Sequence[tuple[int, int]]


def right_of(row: str) -> Right:
    """The descriptor of a row."""
    tag, tables, *data = row.split()
    return Right(tables, Descriptor(int(tag, 16), bytes.fromhex("".join(data))))


RIGHT = [right_of(row) for row in ROWS.split(";")]
PROGRAMS = [Program(257, 0x1000, [(0x02, 0x100), (0x04, 0x101), (0x06, 0x102)]),
            Program(258, 0x1001, [(0x1B, 0x110), (0x0F, 0x111)])]  # fmt: skip


def tables_of(programs: Sequence[Program], chosen: Iterable[Right]) -> list[tuple[int, bytes]]:
    """A table of each kind for these programs, with these descriptors where they may stand: the PID and the section of each."""
    some = list(chosen)

    def of(letter: str, *first: Descriptor) -> list[Descriptor]:
        tags = {one.descriptor.tag for one in some if letter in one.tables}
        return [one for one in first if one.tag not in tags] + [one.descriptor for one in some if letter in one.tables]

    sections = [(PAT, table) for table in (pat(programs),)] + [(one.pid, pmt(one, of)) for one in programs]
    sections += [(1, Table(CAT_ID, {}, [Descriptor(0x09, bytes.fromhex("0b00e1f5"))], [])), (NIT, network(NIT_ID, of("N", NAME))),
                 (SDT, services(programs, of)), (SDT, network(BAT_ID, of("B")))]  # fmt: skip
    sections += [(EIT, events(one, kind, of)) for kind in (EIT_ID, SCHEDULE_ID) for one in programs[:2]]
    times = {"UTC_time": TIME}
    sections += [(TDT, Table(TDT_ID, times, [], [])), (TDT, Table(TOT_ID, times, of("T"), []))]
    return [(pid, made(table)) for pid, table in sections]


PAT, NIT, SDT, EIT, TDT = 0, 16, 17, 18, 20
NAME = Descriptor(0x40, b"Net")


def pat(programs: Sequence[Program]) -> Table:
    """The PAT, with the NIT's PID."""
    numbers = [(0, NIT), *((one.number, one.pid) for one in programs)]
    parts = [Part({"program_number": number, "PID": pid}, []) for number, pid in numbers]
    return Table(PAT_ID, {"transport_stream_id": TRANSPORT}, [], parts)


def pmt(program: Program, of: Callable[..., list[Descriptor]]) -> Table:
    """The PMT of a program: the descriptors stand at its first stream, and those that a program may have too in front."""
    streams = enumerate(program.streams)
    parts = [Part({"stream_type": kind, "PID": pid}, [] if place else of("P")) for place, (kind, pid) in streams]
    fields = {"program_number": program.number, "PCR_PID": program.streams[0][1] if program.streams else 0x1FFF}
    return Table(PMT_ID, fields, [one for one in of("P") if one.tag < 0x40], parts)


def network(table_id: int, descriptors: list[Descriptor]) -> Table:
    """A NIT or a BAT of one transport stream."""
    name = {NIT_ID: "network_id", BAT_ID: "bouquet_id"}[table_id]
    return Table(table_id, {name: 1}, descriptors, [Part(SERVICE, descriptors)])


def services(programs: Sequence[Program], of: Callable[..., list[Descriptor]]) -> Table:
    """The SDT."""
    own = [Descriptor(0x48, bytes.fromhex("010354776f") + bytes([3]) + f"{one.number % 1000:03}".encode()) for one in programs]
    fields = {"running_status": 4, "EIT_present_following_flag": 1}
    parts = [Part({"service_id": one.number, **fields}, of("S", name)) for one, name in zip(programs, own)]
    return Table(SDT_ID, SERVICE, [], parts)


def events(program: Program, table_id: int, of: Callable[..., list[Descriptor]]) -> Table:
    """A table of one event."""
    fields = {**SERVICE, "service_id": program.number, "last_table_id": table_id}
    event = {"event_id": 7, "start_time": TIME, "duration": 0x003000, "running_status": 4}
    return Table(table_id, fields, [], [Part(event, of("E", Descriptor(0x4D, bytes.fromhex("656e670446696c6d00"))))])
