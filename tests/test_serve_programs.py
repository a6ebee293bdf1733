"""Programs of others, those that are there, over a recording at each frequency, and over stations at theirs: what they find and
record is compared with what is known of these. Those that take long are tried by `tests/run --all` alone."""
from __future__ import annotations

import os
import re
import shutil
import socket
import time

import pytest
from conftest import needs
from dvbemu import Report
from dvbemu.stream.packets import pid_of
from serving import PACKET, SERVED, following, packets_of, ran
from stations import EVENTS, HERTZ, NAMES, Station

pytestmark = pytest.mark.alone
NOBODY, SECONDS = "65534", 6
CHANNEL = "[CHANNEL]\n\tDELIVERY_SYSTEM = DVBT\n\tFREQUENCY = {}\n\tBANDWIDTH_HZ = 8000000\n"
PIDS_OF = "[{}]\n\tSERVICE_ID = {}\n\tVIDEO_PID = 256\n\tAUDIO_PID = 257\n" + CHANNEL.format(HERTZ[0]).split("\n", 1)[1]
ZAP = ("{}:474000000:INVERSION_AUTO:BANDWIDTH_8_MHZ:FEC_AUTO:FEC_NONE:QAM_AUTO:TRANSMISSION_MODE_AUTO:GUARD_INTERVAL_AUTO:"
       "HIERARCHY_NONE:256:257:{}\n")  # fmt: skip
TUNING = "T {} 8MHz AUTO NONE AUTO AUTO AUTO NONE\n"
MUMUDVB = """adapter=0
freq=474
bandwidth=8MHz
multicast_ipv4=0
unicast=1
ip_http=127.0.0.1
port_http=0
autoconfiguration=full
"""
VDR = "Alpha;dvbemu:474:B8C23D12G4I999M64S0T8Y0:T:27500:256=2:257@3:0:0:101:8468:1001:0\n"
# A recording of VDR that has begun already, and its end after so many seconds.
VDR_SCRIPT = """echo "1:1:$(date +%F):$(date -d '1 minute ago' +%H%M):$(date -d '5 minutes' +%H%M):50:99:Film:" > conf/timers.conf
exec timeout -s INT 40 vdr --no-kbd -c conf -v video --cachedir=cache -E epg.data -D 0 --port=0 -l 3.7 --log=1 -u $(id -un)
"""
GETSTREAM = """http { port 0; };
adapter 0 {
	budget-mode 0;
	dvb-t { frequency 474000000; bandwidth 8; transmission-mode auto; guard-interval auto; hierarchy none; modulation auto; };
	stream { name "A"; input { pid 256; pid 257; }; output-pipe { filename "pipe"; }; };
};
"""
# The services of the recording, as they are named there, and those of the stations.
SERVICES, ALL = ("The test picture of lavfi", "The same tone of 440 hertz"), [name for names in NAMES for name in names]
# The PIDs of a service; the least packets of a recording, and how many at its end follow one another as in the stream, where none
# were lost.
PIDS, LEAST, FOLLOWING = {256, 257}, 100, 60
# The bytes in front of the packets of a datagram.
RTP = 12
# What is on the air, the channel that is scanned, and what is found there.
DVBS2 = ("DELIVERY_SYSTEM = DVBS2, FREQUENCY = 11362000, POLARIZATION = HORIZONTAL, SYMBOL_RATE = 22000000, INNER_FEC = AUTO, "
         "MODULATION = PSK/8, INVERSION = AUTO")  # fmt: skip
SYSTEMS = (
    ("11362000:DVBS2:H", DVBS2, ["Alpha", "Beta"]), ("11362000:DVBS2:V", DVBS2, []),
    ("346000000:DVBC", "DELIVERY_SYSTEM = DVBC/ANNEX_A, FREQUENCY = 346000000, SYMBOL_RATE = 6900000, INNER_FEC = NONE, "
     "MODULATION = QAM/256, INVERSION = AUTO", ["Alpha", "Beta"]),
    ("474000000:DVBT2", "DELIVERY_SYSTEM = DVBT2, FREQUENCY = 474000000, BANDWIDTH_HZ = 8000000", ["Alpha", "Beta"]),
    ("474000000:DVBT2", "DELIVERY_SYSTEM = DVBT, FREQUENCY = 474000000, BANDWIDTH_HZ = 8000000", []),
)  # fmt: skip


# ------ over a recording


def tried(served, line, statuses=(0,), files=None):
    """What a program wrote that ran over the recording, where it is there; its report is that of a run."""
    needs(re.sub(r"^timeout -s INT \d+ ", "", line).split()[0])
    for name, text in (files or {}).items():
        served.put(name, text)
    out, status = served.run(*line.split())
    assert status in statuses, out
    served.is_right()
    return out


def has_all(text):
    return all(service in text for service in SERVICES)


def dvr_told(served):
    """The bytes that reads of the dvr node gave, and how often they were told that some were lost."""
    dvr = Report.load(str(served.report)).node("dvr")
    return dvr.data(), len(dvr.losses())


def is_recording(served, name, pids):
    """A file has just what the program read of the dvr node, and these are the packets of these PIDs as they come round."""
    data, (told, lost) = served.read(name), dvr_told(served)
    packets = packets_of(data)
    assert len(packets) >= LEAST and told.startswith(data)
    assert set(map(pid_of, packets)) == set(pids)
    loop = [packet for packet in packets_of(served.stream.read_bytes()) if pid_of(packet) in pids]
    assert following(packets, loop, lost) >= FOLLOWING


def test_dvbv5_scan(served):
    tried(served, "dvbv5-scan -o found dvbv5.conf", files={"dvbv5.conf": CHANNEL.format(HERTZ[0])})
    assert has_all(served.read("found").decode())


@pytest.mark.parametrize("line, statuses", [
    ("scan scan.conf", (0,)), ("w_scan -f t -c DE", (0,)), ("timeout -s INT 5 mumudvb -d -c mumudvb.conf", (0, 124)),
])  # fmt: skip
def test_finds_both_services(served, line, statuses):
    """w_scan does on whatever frequency it tries; mumudvb listens to a port of 127.0.0.1 that the system chooses."""
    assert has_all(tried(served, line, statuses, {"scan.conf": TUNING.format(HERTZ[0]), "mumudvb.conf": MUMUDVB}))


def test_dvbv5_zap(served):
    tried(served, "dvbv5-zap -c channels -t 2 -o z.ts One", files={"channels": PIDS_OF.format("One", 257)})
    is_recording(served, "z.ts", PIDS)


def test_gnutv(served):
    """It records what it has asked for, which its report tells."""
    out = tried(served, "gnutv -channels zap.conf -out file g.ts -timeout 3 One", files={"zap.conf": ZAP.format("One", 257)})
    assert "FE_HAS_LOCK" in out
    asked = re.findall(r" pes pid=(\d+) input=frontend output=ts_tap .* = done", served.report.read_text())
    is_recording(served, "g.ts", set(map(int, asked)))


def datagrams(port):
    """What has come to a port."""
    try:
        while True:
            yield port.recv(2048)
    except BlockingIOError:
        pass


def test_dvblast(served):
    """It sends a service to a port of this machine that nobody else has."""
    with socket.socket(socket.AF_INET, socket.SOCK_DGRAM) as port:
        port.bind(("127.0.0.1", 0))
        port.settimeout(0)
        files = {"dvblast.conf": f"127.0.0.1:{port.getsockname()[1]} 1 257\n"}
        tried(served, "timeout -s INT 5 dvblast -f 474000000 -a 0 -c dvblast.conf", (0, 124), files)
        sent = [packet for datagram in datagrams(port) for packet in packets_of(datagram[RTP:])]
    own, loop = ([one for one in some if pid_of(one) in PIDS] for some in (sent, packets_of(served.stream.read_bytes())))
    assert own and following(own, loop, dvr_told(served)[1]) >= min(FOLLOWING, len(own))


def test_python(served):
    """Python's own means find an adapter and wait for it."""
    out, status = served.run(SERVED / "loops.py")
    assert (out.split(), status) == (["paths", "select", "poll", "epoll", "selectors", "file", "asyncio", "file"], 0)
    served.is_right()


# ------ over stations


@pytest.fixture
def air(served):
    """Puts so many stations on the air: the words for that, and the paths of their streams."""

    def made(count=1, system=":DVBT"):
        media, paths = served.stream.read_bytes(), []
        for number, names in enumerate(NAMES[:count], 1):
            paths.append(served.put(f"{names[0]}.ts", Station(number, names, HERTZ, media).stream(SECONDS)))
        return ["--tune", *(f"{hertz}{system}={path}" for hertz, path in zip(HERTZ, paths))], paths

    return made


@pytest.fixture
def heard(served, air):
    """What a command, a line or a list, wrote over so many stations; its report is that of a run, where it is kept."""

    def run(words, count=1, statuses=(0,), keeps=False, system=":DVBT"):
        words = words.split() if isinstance(words, str) else words
        out, status = served.run(*words, air=air(count, system)[0], keep="none" if keeps else None)
        assert status in statuses, out
        if not keeps:
            served.is_right(stream=served.path("played"))
        return out

    return run


def is_of_station(served, name, more=(), least=LEAST):
    """A file's packets are of a service's PIDs, beside some others that a program adds or asks for, and those follow one another
    as in the first station's stream, which goes round."""
    packets, whole = packets_of(served.read(name)), packets_of(served.read("Alpha.ts"))
    assert len(packets) >= least and set(map(pid_of, packets)) <= PIDS | set(more)
    own, loop = ([one for one in some if pid_of(one) in PIDS] for some in (packets, whole))
    assert following(own, loop) >= min(FOLLOWING, len(own))


def found_by_scan(served):
    """The services that dvbv5-scan has written."""
    return sorted(re.findall(r"^\[(.*)\]$", served.read("found").decode(), re.M))


def test_dvbv5_scan_of_four_frequencies(served, heard):
    """It finds each service once, and nothing where no lock is."""
    needs("dvbv5-scan")
    served.put("four.conf", "".join(map(CHANNEL.format, [*HERTZ, 498_000_000])))
    heard("dvbv5-scan -o found four.conf", 3)
    assert found_by_scan(served) == sorted(ALL)


def test_scan_of_four_frequencies(served, heard):
    """It finds each service once, where it is."""
    needs("scan")
    served.put("four.list", "".join(map(TUNING.format, [*HERTZ, 498_000_000])))
    found = re.findall(r"^([A-Z][a-z]+):(\d+):INVERSION", heard("scan four.list", 3), re.M)
    assert sorted(found) == sorted((name, str(one)) for one, names in zip(HERTZ, NAMES) for name in names)


@pytest.mark.parametrize("system, channel, wanted", SYSTEMS)
def test_dvbv5_scan_of_systems(served, air, system, channel, wanted):
    """It finds the services of a satellite, of cable and of DVB-T2, and none where the recording is of another system."""
    needs("dvbv5-scan")
    path = air()[1][0]
    served.put("system.conf", "[CHANNEL]\n" + "".join(f"\t{line}\n" for line in channel.split(", ")))
    words = ["dvbv5-scan", "-l", "UNIVERSAL", "-o", "found", "system.conf"]
    out, status = served.run(*words, air=["--tune", f"{system}={path}"], keep="none")
    assert (status, found_by_scan(served)) == (0, wanted), out


def test_two_adapters(served, air):
    """Two programs record from two adapters at once, each its own stream."""
    needs("dvbv5-zap")
    paths = air(2)[1]
    served.put("channels", PIDS_OF.format("One", 101))
    script = "for a in 0 1; do dvbv5-zap -a $a -c channels -P -t 3 -o $a.ts One & done; wait"
    out, status = served.run("sh", "-c", script, air=["--adapter", paths[0], "--adapter", paths[1]], keep="none")
    assert status == 0, out
    for number, path in enumerate(paths):
        packets = packets_of(served.read(f"{number}.ts"))
        assert len(packets) >= LEAST
        assert following(packets, packets_of(served.read(path))) == len(packets)


def codecs_of(served, name):
    """The codecs that ffprobe finds in a file."""
    words = ["ffprobe", "-v", "error", "-show_entries", "stream=codec_name", "-of", "csv=p=0", served.path(name)]
    return set(re.findall(r"\w+", ran(words).stdout))


def test_ffmpeg_beside_dvbv5_zap(served, heard):
    """It records picture and tone."""
    needs("dvbv5-zap", "ffmpeg")
    served.put("channels", PIDS_OF.format("Alpha", 101))
    script = ("dvbv5-zap -c channels -p -r Alpha > zap 2>&1 & P=$!; sleep 2; ffmpeg -v error -i /dev/dvb/adapter0/dvr0 -t 2 "
              "-map 0:v:0 -map 0:a:0 -c copy -f mpegts -y f.ts; kill $P; wait; true")  # fmt: skip
    heard(["sh", "-c", script])
    assert {"mpeg2video", "mp2"} <= codecs_of(served, "f.ts")


def test_dvbtune(heard):
    """It names both services."""
    needs("dvbtune")
    out = heard("timeout -s INT 20 dvbtune -f 474000 -i", statuses=(0, 1, 124, 255))
    assert "Alpha" in out and "Beta" in out


# ------ what takes long


@pytest.mark.slow
def test_beside_tzap(served, heard):
    """femon has its lock, dvbdate the stream's time, and others record what it has tuned to."""
    needs("tzap", "femon", "dvbdate")
    served.put("zap.conf", ZAP.format("Alpha", 101))
    # (it tells of the frontend on standard error)
    script = ("tzap -c zap.conf -r Alpha 2> tzap & P=$!; until grep -sq FE_HAS_LOCK tzap; do sleep 0.1; done; "
              "femon -H -c 2; dvbdate; head -c 18800 /dev/dvb/adapter0/dvr0 > cat.ts; "
              "dd if=/dev/dvb/adapter0/dvr0 of=dd.ts bs=188 count=100 iflag=fullblock; kill $P; wait; true")  # fmt: skip
    out = heard(["sh", "-c", script])
    assert out.count("FE_HAS_LOCK") == 2 and time.strftime("%Y", time.gmtime()) in out
    for name in "cat.ts", "dd.ts":
        is_of_station(served, name)


@pytest.mark.slow
def test_vdr(served, heard):
    """It has all events of both services, and a timer's recording."""
    needs("vdr")
    for folder in "conf", "video", "cache":
        served.path(folder).mkdir()
    served.put("conf/channels.conf", VDR)
    served.put("conf/sources.conf", "T  Terrestrial\n")
    heard(["sh", "-c", VDR_SCRIPT], 1, (0, 124), keeps=True)
    events = re.findall(r"^T (.*)$", served.read("cache/epg.data").decode(), re.M)
    assert sorted(events) == [f"{name} {number}" for name in NAMES[0] for number in range(EVENTS)]
    part, = served.path("video").glob("**/*.ts")
    is_of_station(served, part, {0, 132, 258}, 50)


@pytest.mark.slow
def test_w_scan_cpp(served, heard):
    """It finds two services where there is a signal."""
    needs("w_scan_cpp")
    line = f"env HOME={served.folder} timeout -s INT 30 w_scan_cpp -f t -c DE"
    assert "searching 2 services" in heard(line, statuses=range(256), keeps=True, system=":DVBT2")


@pytest.mark.slow
def test_dvbstream(served, heard):
    needs("dvbstream")
    heard(["sh", "-c", f"timeout -s INT 5 dvbstream -T -f {HERTZ[0]} -o 256 257 > d.ts"], statuses=(0, 124))
    is_of_station(served, "d.ts", {0})


@pytest.mark.slow
def test_mplayer(served, heard):
    needs("mplayer")
    served.path(".mplayer").mkdir()
    served.put(".mplayer/channels.conf", ZAP.format("Alpha", 101))
    line = f"env HOME={served.folder} timeout -s INT 12 mplayer -nolirc -vo null -ao null -dumpstream -dumpfile m.ts dvb://Alpha"
    assert "dvb_tune Freq: 474000000" in heard(line, statuses=(0, 1, 124))
    is_of_station(served, "m.ts", {0, 17, 18, 480})


@pytest.mark.slow
@pytest.mark.parametrize("line, statuses, more", [
    ("dvbsrc frequency={} delsys=dvb-t bandwidth-hz=8000000 pids=256:257 num-buffers=6", (0,), {0}),
    ("dvbbasebin frequency={} delsys=dvb-t program-numbers=101", (0, 1, 124), {0, 1, 16, 17, 18, 20, 258, 480}),
])  # fmt: skip
def test_gstreamer(served, heard, line, statuses, more):
    needs("gst-launch-1.0", "gst-inspect-1.0")
    if ran(["gst-inspect-1.0", "dvbsrc"]).returncode:
        pytest.skip("GStreamer's dvbsrc isn't there")
    launch = f"env XDG_CACHE_HOME={served.folder} timeout -s INT 15 gst-launch-1.0 -q"
    heard(f"{launch} {line.format(HERTZ[0])} ! filesink location=g.ts", statuses=statuses)
    is_of_station(served, "g.ts", more)
    out, _ = served.run("env", f"XDG_CACHE_HOME={served.path('new')}", "gst-inspect-1.0", "-b", keep="none")
    assert "0 blacklisted files" in out, "none of its plugins is written off"


@pytest.mark.slow
def test_getstream(served, heard):
    """It writes a service into a pipe that is read beside it."""
    needs("getstream")
    served.put("getstream.conf", GETSTREAM)
    os.mkfifo(served.path("pipe"))
    heard(["sh", "-c", "cat pipe > out.ts & timeout -s INT 8 getstream -c getstream.conf; wait"])
    is_of_station(served, "out.ts")


@pytest.mark.slow
def test_mpv(served):
    """It shows pictures of a stream with more of them than a station has, of a service 1."""
    needs("mpv", "ffmpeg")
    ran(["ffmpeg", "-v", "error",
         *"-f lavfi -i testsrc2=size=352x288:rate=25 -f lavfi -i sine -t 8 -c:v mpeg2video -b:v 2M -g 12 "
         "-c:a mp2 -f mpegts -muxrate 3M".split(), served.path("film.ts")])  # fmt: skip
    served.put("channels.conf", ZAP.format("Alpha", 1))
    # (its libavformat looks at 5 MB before the first picture, where it isn't told another size)
    line = ("timeout -s INT 40 mpv --no-config --vo=null --ao=null --frames=20 --demuxer-lavf-probesize=200000 "
            "--dvbin-file=channels.conf dvb://Alpha")  # fmt: skip
    out, status = served.run(*line.split(), air=["--tune", f"{HERTZ[0]}:DVBT=film.ts"])
    assert status == 0 and "mpeg2video 352x288 25.000fps" in out and "(mp2 1ch 44100Hz)" in out, out
    assert re.search(r"AV: 00:00:00 .*\n*.*AV: ", out)
    served.is_right(stream=served.path("played"))


@pytest.mark.slow
def test_vlc(served, air):
    """It records a service, as a user that isn't root."""
    needs("cvlc", "setpriv")
    words, is_root = air()[0], os.geteuid() == 0
    if is_root:
        os.chmod(served.folder, 0o755)
        os.chown(served.folder, int(NOBODY), -1)
    as_nobody = f"setpriv --reuid={NOBODY} --regid={NOBODY} --clear-groups ".split() if is_root else []
    line = ("timeout -s INT 25 cvlc -q --no-video --no-audio dvb-t://frequency=474000000:bandwidth=8 "
            "--sout #std{access=file,mux=ts,dst=v.ts} --run-time 5 vlc://quit")  # fmt: skip
    out, _ = served.run(*line.split(), air=words, keep="none", before=[*as_nobody, "env", f"HOME={served.folder}"])
    assert len(served.read("v.ts")) >= 20 * PACKET, out
    assert not shutil.which("ffprobe") or {"mpeg2video", "mp2"} <= codecs_of(served, "v.ts")


@pytest.mark.slow
def test_kaffeine(served, heard):
    """It starts, and goes on until it is ended."""
    needs("kaffeine", "dbus-run-session")
    line = f"env HOME={served.folder} QT_QPA_PLATFORM=offscreen timeout 8 dbus-run-session -- kaffeine"
    heard(line, statuses=(124,), keeps=True)
