"""Makes the run of each scenario of examples/pictures a capture, by tools/as_capture, and lays what tools/capture tells of it beside
the trace: in each direction of each socket the same frames at the same places, with the same numbers, seen at the moment of the turn
in which their last bytes were written; a frame that isn't whole is told as such; each session stands once, and "written again"
stands on each message that was. Packets in another order, twice, or cut into bytes tell the same. The picture has an arrow for each
frame. examples/captures has the capture of one of them, and its picture. What real daemons write otherwise than the profile is told by
--check, and bad inputs by a sentence. Where dpkt is there the file is read by it, else by the lines below, which know the form that tools/as_capture writes.

The programs are those that rt ci built: crates/run_trace/out/run_trace and crates/frame_facts/out/frame_facts.
"""
import json
import os
import random
import struct
import subprocess
import sys
import tempfile
import xml.etree.ElementTree

sys.dont_write_bytecode = True
TOP = os.path.dirname(os.path.dirname(os.path.abspath(__file__)))
sys.path.insert(0, os.path.join(TOP, "tools"))
import ladder
import packets
import run_trace
import wire
from conversation import ANSWERS, Story, summary_words
from fates import Fates

PICTURES, EXAMPLE = os.path.join(TOP, "examples", "pictures"), os.path.join(TOP, "examples", "captures", "resumed.pcap")
PICTURE = os.path.join(TOP, "examples", "captures", "resumed.svg")
RUN_TRACE, FACTS = (os.path.join(TOP, "crates", name, "out", name) for name in ("run_trace", "frame_facts"))


def read_packets(file):
    """The packets of a capture that tools/as_capture wrote."""
    try:
        packets.load()
        with open(file, "rb", buffering=0) as it:
            return list(packets.packets_of(packets.Input(it)))
    except packets.BadCapture:
        pass
    with open(file, "rb") as it:
        data = it.read()
    at, found = 24, []
    while at < len(data):
        seconds, micros, length, _ = struct.unpack_from("<IIII", data, at)
        ip, tcp = data[at + 30 : at + 50], data[at + 50 : at + 16 + length]
        source, target, seq, _, _, flags = struct.unpack_from(">HHIIBB", tcp)
        names = [packets.address(ip[12 + 4 * i : 16 + 4 * i], port) for i, port in enumerate((source, target))]
        found.append(packets.Packet(seconds + micros / 1000000, *names, seq, flags, tcp[20:]))
        at += 16 + length
    first = found[0].time if found else 0
    for packet in found:
        packet.time -= first
    return found


def told(their_packets):
    gathered, story = packets.Gathered(), Story(FACTS)
    for packet in their_packets:
        gathered.take(packet)
    gathered.end()
    return gathered.all, story.events(gathered.all, True), story.sessions.all


def is_told_by_its_answer(event):
    """Whether the frame that is written for a judgement tells the row; and it was written."""
    answer = event.words[8]
    tag = wire.SERVER_IDENT if answer.startswith("accept") else {
        "reset": wire.RESET, "reset_pending": wire.RESET, "resume": wire.RECONNECT_OK, "retry": wire.RETRY, "retry_global": wire.RETRY_GLOBAL,
        "wait": wire.WAIT,
    }.get(answer)
    return any(it.tag == tag and it.writer == event.node and it.written for it in event.socket.flights)


def told_otherwise(name, run, connections, events):
    """What of a run is told otherwise than its trace has it."""
    fates, sockets = Fates(run), list(run.sockets.values())
    if len(connections) != len(sockets):
        yield f"{name}: {len(connections)} connections of {len(sockets)}"
    moment, first = 0, None
    for row in run.rows:
        row.at = moment
        moment += row.what == "turn"
        if first is None and any(event.what == "opened" for event in row.events):
            first = row.at
    for connection, socket in zip(connections, sockets):
        for source, node in ((connection.opener, socket.opener), (connection.acceptor, socket.acceptor)):
            frames = [it for it in events if it.connection is connection and it.source == source and it.frame]
            wrote = [it for it in socket.flights if it.writer == node and it.written]
            if [(it.place, it.frame["tag"]) for it in frames] != [(it.start, wire.NAMES[it.tag].upper()) for it in wrote]:
                yield f"{name}: on {socket.name} {node} wrote other frames than are told"
                continue
            for event, flight in zip(frames, wrote):
                if int(event.time * 1000 + 0.0005) != flight.written.row.at - first:
                    yield f"{name}: the {event.frame['tag']} at {event.place} of {node} on {socket.name} is told at another moment"
                number = flight.says.get("seq", flight.says.get("number", flight.says.get("seen")))
                if number is not None and number not in event.frame.values():
                    yield f"{name}: the {event.frame['tag']} at {event.place} of {node} on {socket.name} has another number"
            answers = [it for it in frames if it.frame["tag"] in ANSWERS]
            for event, judged in zip(answers, [it for it in socket.judged if it.node == node and is_told_by_its_answer(it)]):
                said = [mark.removeprefix("row ") for mark in event.marks if mark.startswith("row ")]
                if said != [judged.named] and (said or event.frame["tag"] not in ("SERVER_IDENT", "SESSION_RESET")):
                    yield f"{name}: on {socket.name} {node} answered by the row {judged.named}, and {said} is told"
            left = [it for it in socket.flights if it.writer == node and not it.written and it.put]
            notes = [it for it in events if it.connection is connection and it.source == source and it.note and "isn't whole" in it.note]
            if len(left) != len(notes):
                yield f"{name}: on {socket.name} {len(left)} frames of {node} aren't whole, and {len(notes)} are told as such"


def written_again(run):
    """How many messages are written whole once more on another socket of the same session."""
    seen, count, cookies = set(), 0, {}
    for row in run.rows:
        cookies |= {both: server for both, (_, _, server, *_) in row.sessions.items()}
        for event in row.events:
            if event.what == "wrote":
                for flight in event.socket.flights:
                    if flight.written is event and flight.tag == wire.MESSAGE:
                        key = event.node, event.peer, cookies.get((event.node, event.peer)), flight.says["seq"], bytes(b"".join(flight.frame.segments[1:]))
                        count += key in seen
                        seen.add(key)
    return count


def address(kind, port, nonce):
    """The bytes of an address of this kind on the loopback."""
    text = bytearray(wire.Address((127, 0, 0, 1), port, nonce).text())
    text[7:11] = kind.to_bytes(4, "little")
    return bytes(text)


def vector(*addresses):
    return bytes([2]) + len(addresses).to_bytes(4, "little") + b"".join(addresses)


HERE, THERE, KIND_3 = address(2, 7001, 1), address(2, 7002, 2), address(3, 0, 5)
AUTH_OF_CEPH = bytes.fromhex("0108000000") + bytes(12)  # what real daemons write in AUTH_REQUEST without authentication
OTHERWISE = [  # what a real daemon writes and this project's ends don't: the frame, whether its opener writes it, and what is told of it
    (wire.framed(wire.HELLO, bytes([4]) + THERE), True, None),
    (wire.framed(wire.AUTH_REQUEST, wire.le(1, 4) + wire.le(2, 4) + wire.le(2, 4) + wire.le(1, 4) + wire.le(17, 4) + AUTH_OF_CEPH), True, "a payload in AUTH_REQUEST"),
    (wire.framed(wire.CLIENT_IDENT, vector(KIND_3) + THERE + wire.words(0, 1, 1, 0, 0, 7)), True, "an opener's is of kind 3"),
    (wire.framed(wire.CLIENT_IDENT, vector(HERE, address(1, 7001, 1)) + THERE + wire.words(0, 1, 1, 0, 0, 7)), True, "addresses of kind v2, v1"),
    (wire.framed(wire.SERVER_IDENT, vector(THERE) + wire.words(0, 1, 1, 0, 1, 8)), False, "a lossy flag of the acceptor and none of the opener"),
    (wire.framed(wire.KEEPALIVE2, bytes(8)), True, "KEEPALIVE2, which the profile reads and never writes"),
    (wire.message(42, 63, (b"front",), 1, 0), True, "a message of priority 63"),
    (wire.framed(wire.RESET, bytes([1])), False, "a full reset between two daemons"),
    (wire.framed(wire.AUTH_DONE, wire.le(0, 8) + wire.le(2, 4) + wire.le(0, 4)), False, "secure mode"),
]

BOTH = [(True, wire.banner()), (False, wire.banner())]
DONE = {mode: wire.framed(wire.AUTH_DONE, wire.le(0, 8) + wire.le(mode, 4) + wire.le(0, 4)) for mode in (1, 2)}
BANNER_OF_0 = b"ceph v2\n\x10\0" + bytes(16)
CIPHER = bytes(range(100, 196))  # bytes that are no frame
RECONNECT = wire.framed(wire.RECONNECT, vector(HERE) + wire.words(7, 8, 2, 1, 4))
NAMED = [  # connections by what the two ends write, and what is told of them
    ("secure mode", [*BOTH, (False, DONE[2]), (True, CIPHER), (False, CIPHER), (True, CIPHER)],
     ["7002 is in secure mode: 96 bytes are cipher text", "40000 is in secure mode: 192 bytes are cipher text"]),
    ("msgr1", [(True, b"ceph v027" + bytes(136)), (False, b"ceph v027" + bytes(272))], ["40000 speaks msgr1", "7002 speaks msgr1"]),
    ("msgr2.0", [(it, BANNER_OF_0 + (CIPHER if it else b"")) for it in (True, False)], ["40000 speaks msgr2.0, whose frames have another form: 96 bytes aren't told"]),
    ("another protocol", [(True, b"GET / HTTP/1.1\r\n\r\n")], ["40000 sends no banner: this isn't a connection of Ceph"]),
    ("what a reconnect leaves out", [
        *BOTH, (True, RECONNECT), (False, wire.framed(wire.RECONNECT_OK, wire.words(5))), (True, wire.message(42, 127, (b"front",), 8, 0)),
        (False, wire.message(43, 127, (b"front",), 5, 0)), (True, wire.message(42, 127, (b"front",), 11, 0))
    ], ["seq=8 tid=0 priority=127 ack=0 front=5 middle=0 data=0 (session 0, 2 numbers before it are missing)",
        "seq=5 tid=0 priority=127 ack=0 front=5 middle=0 data=0 (session 0)", "front=5 middle=0 data=0 (session 0, 2 numbers before it are missing)"]),
    ("an acknowledgement that goes back", [
        *BOTH, (True, RECONNECT), (False, wire.framed(wire.RECONNECT_OK, wire.words(5))), *((False, wire.framed(wire.ACK, wire.words(it))) for it in (7, 6))
    ], ["ACK seen=7 (session 0)", "ACK seen=6 (session 0, acknowledges 6, and 7 before)"]),
]


def events_of(said, is_checked=False):
    """What is told of one connection, on which the two ends write these bytes in turn: whether it is the opener, and what it writes."""
    sent, places = [], {True: 0, False: 0}
    for moment, (is_opener, data) in enumerate(said):
        ends = ("127.0.0.1:40000", "127.0.0.1:7002")[:: 1 if is_opener else -1]
        if places[is_opener] == 0:
            sent.append(packets.Packet(moment, *ends, 0, 2 if is_opener else 18, b""))
        sent.append(packets.Packet(moment, *ends, 1 + places[is_opener], 16, data))
        places[is_opener] += len(data)
    gathered, story = packets.Gathered(), Story(FACTS, is_checked)
    for packet in sorted(sent, key=lambda it: (not it.syn, it.time)):
        gathered.take(packet)
    gathered.end()
    return story.events(gathered.all, True)


def named_otherwise():
    """Which connection isn't told by its name, and which mark of a session isn't told."""
    for name, said, due in NAMED:
        found = [event.words().split(" ", 2)[2] for event in events_of(said)]
        for sentence in due:
            if not any(sentence in it for it in found):
                yield f"{name}: {sentence!r} isn't told, but {found}"
        if sum("sent" in it and "aren't told" in it for it in found) > sum("aren't told" in it for it in due):
            yield f"{name}: bytes aren't told, and no name is: {found}"


def unlike_otherwise():
    """What of frames that the profile hasn't isn't told by --check."""
    said = [(True, wire.banner()), (False, wire.banner()), *((way, frame) for frame, way, _ in OTHERWISE)]
    found = [event for event in events_of(said, True) if event.frame and event.frame["tag"] != "BANNER"]
    if len(found) != len(OTHERWISE):
        yield f"--check: {len(OTHERWISE)} frames were written, and {len(found)} are told"
    for event, (_, _, said) in zip(found, OTHERWISE):
        if said is None and event.unlike or said and not any(said in it for it in event.unlike):
            yield f"--check: of {event.frame['tag']} is told {event.unlike}, and {said!r} is due"


def blocks(kind, data, link):
    """A pcapng file of the packets of a pcap file behind an interface with another kind of packets, of which it has none, and another
    unit of time."""
    block = lambda kind, body: struct.pack("<II", kind, 12 + len(body)) + body + struct.pack("<I", 12 + len(body))
    parts = [block(0x0A0D0D0A, struct.pack("<IHHq", 0x1A2B3C4D, 1, 0, -1)), block(1, struct.pack("<HHI", 276, 0, 0) + struct.pack("<HHB3xI", 9, 1, 9, 0)),
             block(1, struct.pack("<HHI", link, 0, 0))]
    at = 24
    while at < len(data):
        seconds, micros, size, whole = struct.unpack_from("<IIII", data, at)
        time, body = seconds * 1000000 + micros, data[at + 16 : at + 16 + size]
        parts.append(block(kind, struct.pack("<IIIII", 1, time >> 32, time & 0xFFFFFFFF, size, whole) + body + bytes(-size % 4)))
        at += 16 + size
    return b"".join(parts)


def cut_off(data, most):
    """The capture as tcpdump -s records it."""
    at, parts = 24, [data[:24]]
    while at < len(data):
        seconds, micros, size, whole = struct.unpack_from("<IIII", data, at)
        parts.append(struct.pack("<IIII", seconds, micros, min(size, most), whole) + data[at + 16 : at + 16 + min(size, most)])
        at += 16 + size
    return b"".join(parts)


def run_capture(*words, **how):
    said = [sys.executable, os.path.join(TOP, "tools", "capture"), "--program", FACTS, *words]
    return subprocess.run(said, capture_output=True, text=True, **how)


def read_otherwise():
    """What of files of other forms, and by the options, is told otherwise than of the example."""
    with open(EXAMPLE, "rb") as it:
        good = it.read()
    plain = run_capture(EXAMPLE)
    if plain.returncode or plain.stderr:
        yield f"{EXAMPLE}: status {plain.returncode} and {plain.stderr!r}"
    with tempfile.TemporaryDirectory() as room:
        other, part, none = (os.path.join(room, name) for name in ("other", "part", "none"))
        for name, data in ((other, blocks(6, good, 1)), (part, cut_off(good, 96)), (none, good[:24])):
            with open(name, "wb") as out:
                out.write(data)
        if run_capture(other).stdout != plain.stdout:
            yield "a pcapng file with two interfaces is told otherwise"
        if "only the first bytes were recorded" not in run_capture(part).stderr:
            yield "of packets that were recorded in part nothing is said"
        if "no packet of TCP" not in run_capture(none).stderr:
            yield "of a capture without packets nothing is said"
    with open(EXAMPLE, "rb") as it:
        if run_capture("--follow", "/dev/stdin", stdin=it).stdout != plain.stdout:
            yield "--follow tells something else"
    for option, value in (("--peer", "10.9.8.7"), ("--connection", "2"), ("--tag", "WAIT")):
        if (ran := run_capture(option, value, EXAMPLE)).returncode or ran.stdout or "nothing in it" not in ran.stderr:
            yield f"{option} {value}: status {ran.returncode}, {ran.stdout!r} and {ran.stderr!r}"
    whole = [json.loads(line) for line in run_capture("--summary", "--json", EXAMPLE).stdout.splitlines()]
    of_one = [json.loads(line) for line in run_capture("--summary", "--json", "--connection", "1", EXAMPLE).stdout.splitlines()]
    if of_one != whole[1:] or [summary_words(it) for it in whole] != run_capture("--summary", EXAMPLE).stdout.splitlines():
        yield f"--summary tells {whole}, and of one connection {of_one}"
    with open("/dev/full", "wb") as full:
        ran = subprocess.run([sys.executable, os.path.join(TOP, "tools", "capture"), "--program", FACTS, "--summary", EXAMPLE], stdout=full, stderr=subprocess.PIPE, text=True)
    if ran.returncode != 2 or ran.stderr != "capture: standard output: No space left on device\n":
        yield f"where nothing can be printed: status {ran.returncode} and {ran.stderr!r}"


def bad_inputs():
    """Of each file that is no capture a part of the sentence that is due; of the words before it the same."""
    with open(EXAMPLE, "rb") as it:
        good = it.read()
    scenario, frames = (os.path.join(TOP, "examples", *it) for it in (("first.scenario",), ("frames", "message.frames")))
    with open(scenario, "rb") as one, open(frames, "rb") as other:
        files = {
            "it is empty": b"", "it is a scenario": one.read(), "a frame of msgr2.1": other.read(), "packed by gzip": b"\x1f\x8b\x08" + bytes(9),
            "the banner of msgr2": wire.banner(), "the banner of msgr1": b"ceph v027" + bytes(40), "zero bytes": bytes(4096),
            "no pcap or pcapng file": b"hello world\n", "what tcpdump prints": b"12:00:00.000001 IP 10.0.0.1.3300 > 10.0.0.2.41000: Flags [S]\n",
            "a dump of bytes": b"00000000: 6365 7068 2076 320a  ceph v2.\n", "a trace of two records": b"a address 127.0.0.1:7001/1 no no yes no\n",
            "a picture": b"<svg xmlns='x'>", "a record of TLS": b"\x16\x03\x01\x02\x00", "packed by xz": b"\xfd7zXZ\x00\x00",
        }
    try:
        packets.load()
        files |= {
            "inside a packet": good[:1000], "damaged or cut short": good[:10], "link type 105": good[:20] + b"\x69\0\0\0" + good[24:],
            "it ends inside": good[:32] + b"\xff\xff\xff\xff" + good[36:], "damaged or cut short: unknown": b"\n\r\r\n" + bytes(60),
            "a packet of interface 1": blocks(6, good, 1)[:60] + blocks(6, good, 1)[80:], "a block of 4 bytes": blocks(6, good, 1)[:32] + b"\4\0\0\0" + bytes(30),
        }
    except packets.BadCapture:
        pass
    words = {
        "no message type": ["--type", "NOBODY"], "no tag": ["--tag", "NOBODY"], "invalid int value": ["--connection", "x"],
        "invalid float value": ["--from", "x"], "unrecognized arguments": ["--nobody"], "--draw goes with": ["--draw", "--json"],
        "isn't built": ["--program", "/nowhere"], "No such file": [os.path.join(TOP, "nowhere")], "no message type 65536": ["--type", "65536"],
        "--summary goes with": ["--summary", "--tag", "ACK"],
    }
    return files, words


def told_badly():
    """Which bad input isn't answered by a sentence with status 2."""
    files, words = bad_inputs()
    program = os.path.join(TOP, "tools", "capture")
    with tempfile.TemporaryDirectory() as room:
        asked = [(said, [os.path.join(room, str(number))]) for number, said in enumerate(files)]
        for (_, (name,)), data in zip(asked, files.values()):
            with open(name, "wb") as out:
                out.write(data)
        asked += [(said, [*them, EXAMPLE][: len(them) + (them[0] != os.path.join(TOP, "nowhere"))]) for said, them in words.items()]
        for said, them in [*asked, ("Is a directory", [room])]:
            ran = subprocess.run([sys.executable, program, *(["--program", FACTS] if "--program" not in them else []), *them], capture_output=True, text=True)
            if ran.returncode != 2 or said not in ran.stderr or len(ran.stderr.splitlines()) != 1:
                yield f"capture {' '.join(them)}: status {ran.returncode} and {ran.stderr!r}, and one line with {said!r} is due"


def main():
    wrong, count = [], 0
    for file in sorted(os.listdir(PICTURES)):
        if not file.endswith(".scenario"):
            continue
        name = file.removesuffix(".scenario")
        with tempfile.TemporaryDirectory() as room:
            trace, capture = os.path.join(room, "trace"), os.path.join(room, "pcap")
            with open(trace, "wb") as out:
                subprocess.run([RUN_TRACE, os.path.join(PICTURES, file)], stdout=out, check=True)
            subprocess.run([os.path.join(TOP, "tools", "as_capture"), trace, capture], check=True)
            with open(trace) as it:
                run = run_trace.read_run(it.read())
            if os.path.basename(EXAMPLE) == f"{name}.pcap":
                with open(EXAMPLE, "rb") as one, open(capture, "rb") as other:
                    if one.read() != other.read():
                        wrong.append(f"{EXAMPLE}: tools/as_capture writes another capture")
            sent = read_packets(capture)
        connections, events, _ = told(sent)
        wrong += told_otherwise(name, run, connections, events)
        again = sum("written again" in event.marks for event in events)
        if again != written_again(run):
            wrong.append(f"{name}: {written_again(run)} messages are written again, and {again} are told so")
        plain = [event.words() for event in events if event.frame]
        for said, other in (("twice", twice(sent)), ("in another order", shuffled(sent)), ("in single bytes", cut_up(sent))):
            if [event.words() for event in told(other)[1] if event.frame] != plain:
                wrong.append(f"{name}: packets that come {said} tell something else")
        picture = ladder.svg(events)
        arrows = sum(part.tag.endswith("polygon") for part in xml.etree.ElementTree.fromstring(picture).iter())
        if arrows != len(plain):
            wrong.append(f"{name}: the picture has {arrows} arrows, and {len(plain)} frames are told")
        if os.path.basename(EXAMPLE) == f"{name}.pcap":
            with open(PICTURE, encoding="utf-8") as it:
                if it.read() != picture:
                    wrong.append(f"{PICTURE}: tools/capture --draw draws another picture")
        count += 1
    wrong += [*unlike_otherwise(), *named_otherwise(), *told_badly()]
    try:
        packets.load()
        wrong += read_otherwise()
    except packets.BadCapture:
        pass
    for it in wrong:
        print(it)
    print(f"captures: {count} runs are told as their traces have them" if not wrong else f"captures: {len(wrong)} are told otherwise")
    return 1 if wrong or count == 0 else 0


def twice(sent):
    return [packet for it in sent for packet in (it, it)]


def shuffled(sent):
    """Those with bytes in another order, behind the others of their moment."""
    rng = random.Random(5)
    return sorted(sent, key=lambda it: (round(it.time, 3), rng.random() + 1 if it.data else 0))


def cut_up(sent):
    found = []
    for it in sent:
        flags = it.fin | it.syn << 1 | it.rst << 2 | it.ack << 4
        if not it.data:
            found.append(it)
        for at in range(len(it.data)):
            found.append(packets.Packet(it.time, it.source, it.target, it.seq + at, flags & 16, it.data[at : at + 1]))
    return found


sys.exit(main())
