"""Besieges runs with random and changed bytes, and says what is wrong about any of them (checks/hostile.sh).

A connection says the recorded handshake of a client (examples/captures), changed; or frames with right checksums whose fields are
chosen at random; or random bytes. In the runs of odd seeds it asks under no peer's address, so the run has to end with status 7
and the whole report of its nodes. In those of even seeds some ask under the address of c, a peer that is off, and go on with
messages and acknowledgements at random: there the run may end with status 6 besides, and prints nothing then. What is wrong is
told with its seed: the same words with that seed try it again, but for time.

usage: besiege.py PROGRAM SECONDS [SEED]
"""
import collections, os, random, socket, struct, sys, threading, time

TOP = os.path.dirname(os.path.dirname(os.path.abspath(__file__)))
sys.dont_write_bytecode = True
sys.path.insert(0, os.path.join(TOP, ".ci"))
import hostile as siege
from threads import address, crc, frame

LIMIT = 1_500  # milliseconds of a run
SLACK = 20  # seconds that a run may take beyond its limit, on a machine that does other work
CROWD = 24  # threads that connect
MOST_CONNECTIONS = 3_000  # of a run
MOST_BYTES = 40_000_000  # of a run
NAMES = {1: "HELLO", 2: "AUTH_REQUEST", 3: "AUTH_BAD_METHOD", 6: "AUTH_DONE", 7: "AUTH_SIGNATURE", 9: "SERVER_IDENT", 10: "IDENT_MISSING_FEATURES",
         12: "SESSION_RESET", 13: "SESSION_RETRY", 14: "SESSION_RETRY_GLOBAL", 15: "SESSION_RECONNECT_OK", 16: "WAIT", 17: "MESSAGE", 19: "KEEPALIVE2_ACK", 20: "ACK"}
CAPTURE = os.path.join(TOP, "examples", "captures", "resumed.pcap")


def recorded():
    """The streams of a capture: what either side of each of its connections wrote, in order."""
    with open(CAPTURE, "rb") as file:
        data = file.read()
    order = "<" if data[:4] in (b"\xd4\xc3\xb2\xa1", b"\x4d\x3c\xb2\xa1") else ">"
    link = struct.unpack(order + "I", data[20:24])[0]
    skip = {1: 14, 101: 0, 113: 16, 228: 0, 0: 4}[link]
    streams, at = collections.defaultdict(dict), 24
    while at + 16 <= len(data):
        size = struct.unpack(order + "I", data[at + 8 : at + 12])[0]
        packet = data[at + 16 + skip : at + 16 + size]
        at += 16 + size
        head = (packet[0] & 15) * 4
        if packet[0] >> 4 != 4 or packet[9] != 6:
            continue
        whole = struct.unpack(">H", packet[2:4])[0]
        tcp = packet[head:whole]
        payload = tcp[(tcp[12] >> 4) * 4 :]
        if payload:
            streams[tcp[:4]][struct.unpack(">I", tcp[4:8])[0]] = payload
    return [b"".join(pieces[seq] for seq in sorted(pieces)) for pieces in streams.values()]


def changed(r, text):
    """A text with some bytes changed, left out, doubled, or cut off."""
    text = bytearray(text)
    for _ in range(r.choice([0, 1, 1, 2, 5, 20])):
        if not text:
            break
        at = r.randrange(len(text))
        match r.randrange(5):
            case 0:
                text[at] ^= 1 << r.randrange(8)
            case 1:
                text[at] = r.choice([0, 1, 255, r.randrange(256)])
            case 2:
                del text[at : at + r.choice([1, 2, 32])]
            case 3:
                text[at:at] = text[max(0, at - r.randrange(64)) : at]
            case 4:
                del text[at:]
    return bytes(text)


def frames(r, to):
    """A handshake of frames with right checksums, of which fields and order are chosen at random."""
    word = lambda: r.choice([0, 1, 5, 2**32 - 1, 2**40, 2**64 - 1, r.randrange(2**64)])
    mine = (r.choice([1, 2, 65535]), 2**32 - 1 - r.randrange(1000))  # of nobody
    usual = [siege.hello(to), siege.request(), siege.SIGNATURE]
    asks = [siege.ident(mine, to, word(), word()), siege.reconnect(mine, word(), word(), word(), word(), word())]
    others = [frame(r.randrange(1, 23), bytes(r.randrange(256) for _ in range(r.choice([0, 1, 8, 40])))),
              siege.request(r.randrange(4), [r.randrange(3) for _ in range(r.choice([0, 1, 2, 64, 65]))]),
              siege.preamble(17, [41, r.randrange(2**27), 0, 1 + r.randrange(2**27)]), siege.preamble(r.randrange(1, 23), [r.randrange(2**20)]),
              frame(7, bytes(r.choice([0, 31, 33]))), siege.hello(siege.NOBODY)]
    said = usual[: r.choice([0, 1, 2, 3, 3, 3, 3])]
    for _ in range(r.choice([0, 1, 1, 2, 4])):
        said.insert(r.randrange(len(said) + 1), r.choice(others + asks))
    if r.random() < 0.5:
        said.append(r.choice(asks))
    return [siege.BANNER, *said]


def message(seq, front, ack):
    header = struct.pack("<QQHHHIHQBHH", seq, 0, 1, 127, 1, 0, 0, ack, 0, 1, 0)
    text = siege.preamble(17, [41, len(front)]) + header + struct.pack("<I", crc(header))
    return text + front + b"\x0e" + struct.pack("<III", crc(front), 0, 0)


def as_a_peer(r, mine, to):
    """A session under a peer's address, that goes on at random."""
    word = lambda: r.choice([0, 1, 2, 3, 5, 2**40, r.randrange(2**40), r.randrange(2**64)])
    cookie = r.choice([1, 2, siege.COOKIE])
    asks = [siege.ident(mine, to, r.choice([1, 5, 999, r.randrange(2**40)]), cookie), siege.reconnect(mine, cookie, word(), word(), word(), word())]
    said = [siege.BANNER, siege.hello(to), siege.request(), siege.SIGNATURE, r.choice(asks)]
    seq = r.choice([0, 1])
    for _ in range(r.randrange(12)):
        seq += r.choice([0, 1, 1, 1, 1, 2])
        said.append(r.choice([message(seq, b"from c", r.choice([0, 0, 1, 5])), message(seq, b"from c", 0), frame(20, struct.pack("<Q", r.choice([0, 1, 7]))),
                              frame(18, struct.pack("<II", 1, 2)), frame(19, struct.pack("<II", 1, 2)), r.choice(asks), siege.preamble(17, [41, r.randrange(2**27)])]))
    return said


def said_by(r, to, records, peer):
    """What a connection says, piece by piece."""
    if peer and r.random() < 0.4:
        said = as_a_peer(r, peer, to)
        return said if r.random() < 0.7 else [changed(r, b"".join(said))]
    match r.randrange(4):
        case 0:
            return [changed(r, r.choice(records))]
        case 1:
            return [bytes(r.randrange(256) for _ in range(r.choice([0, 1, 7, 26, 100, 5_000])))]
        case 2:
            return frames(r, to)
        case 3:
            pieces = [piece if r.random() < 0.8 else changed(r, piece) for piece in frames(r, to)]
            return pieces if r.random() < 0.8 else [b"".join(pieces)[i : i + 1] for i in range(min(60, sum(map(len, pieces))))]


class Crowd:
    """Threads that connect to ports until told to stop, and what they saw."""

    def __init__(self, seed, targets, records, peer):
        self.peer = peer
        self.counts, self.lock, self.stop = collections.Counter(), threading.Lock(), threading.Event()
        self.targets, self.records = targets, records
        self.threads = [threading.Thread(target=self.go, args=(random.Random(seed * 1_000 + place),)) for place in range(CROWD)]
        for thread in self.threads:
            thread.start()

    def count(self, **more):
        with self.lock:
            self.counts.update(more)

    def go(self, r):
        while not self.stop.is_set():
            with self.lock:
                over = self.counts["connections"] >= MOST_CONNECTIONS or self.counts["bytes"] >= MOST_BYTES
            if over:
                return
            self.connect(r, r.choice(self.targets))

    def connect(self, r, to):
        try:
            end = socket.create_connection(("127.0.0.1", to[0]), timeout=0.5)
        except OSError:
            self.count(refused=1)
            time.sleep(0.02)
            return
        pieces, answer, ended = said_by(r, to, self.records, self.peer), b"", "left"
        self.count(connections=1, bytes=sum(map(len, pieces)), moves=len(pieces))
        try:
            end.settimeout(r.choice([0.02, 0.2, 1]))
            for piece in pieces:
                end.sendall(piece)
            while piece := end.recv(65_536):
                answer += piece
            ended = "closed by the node"
        except TimeoutError:
            pass
        except OSError:
            ended = "closed by the node"
        end.close()
        self.count(**{ended: 1}, **self.told(answer))

    def told(self, answer):
        """The kinds of what a node answered."""
        found = collections.Counter(answered=len(answer))
        if answer[:26] == siege.BANNER:
            found["banner"] += 1
            at = 26
            while at + 32 <= len(answer):
                size = struct.unpack("<I", answer[at + 2 : at + 6])[0]
                found[NAMES.get(answer[at], f"tag {answer[at]}")] += 1
                at += 32 + (size + 4 if size else 0)
        return found

    def end(self):
        self.stop.set()
        for thread in self.threads:
            thread.join()
        return self.counts


def besiege(program, seed, records, rest):
    """One run: what is wrong about it, what was seen, and its seconds."""
    it = siege.Siege(program, limit=LIMIT, posts=random.Random(seed).choice([10, 100, 1_000]))
    peer = None if seed % 2 else it.at["c"]
    crowd = Crowd(seed, [it.at["b"], it.at["d"], it.at["a"]], records, peer)
    time.sleep(LIMIT / 1_000 * 1.2)
    seen = crowd.end()

    most = rest + seen["connections"] * siege.A_SOCKET + siege.A_BYTE * (seen["bytes"] + seen["answered"]) + siege.A_MOVE * 2 * seen["moves"]
    found = it.objections(f"seed {seed}", most, bool(peer))
    took = time.monotonic() - it.began
    if took > 3 * LIMIT / 1_000 + SLACK:
        found.append(f"seed {seed}: {took:.1f} s, with a limit of {LIMIT / 1_000:.1f} behind the last stranger")
    return found, seen, took


def main():
    program, seconds = sys.argv[1], float(sys.argv[2])
    seed = int(sys.argv[3]) if len(sys.argv) > 3 else 1
    records = recorded()
    rest = siege.peak_at_rest(program) + 20_000_000
    until, total, longest, runs, wrong = time.monotonic() + seconds, collections.Counter(), 0.0, 0, False
    while not wrong and (runs == 0 or time.monotonic() < until):
        found, seen, took = besiege(program, seed + runs, records, rest)
        total += seen
        runs += 1
        longest = max(longest, took)
        for line in found:
            wrong = True
            print(f"checks/hostile.sh: {line}")
    print(f"{runs} runs under siege, the longest {longest:.1f} s; seeds {seed} to {seed + runs - 1}")
    for name, count in sorted(total.items(), key=lambda it: -it[1]):
        print(f"{count:12,} {name}")
    return wrong


if __name__ == "__main__":
    sys.exit(main())
