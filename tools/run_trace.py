#!/usr/bin/env python3
"""Reads the trace of a run of `sim`, or of one on threads: its lines as rows of events, and the bytes of its sockets as frames on
their way.

usage: tools/run_trace.py TRACE

docs/SCENARIOS.md has the form, under "The trace of a run" and "The trace of a run on threads". `read_run` gives a `Run`, or raises
`BadTrace` with the number of the first line that isn't so and what is wrong with it. As a command it plays the script of the trace
by tools/model.py, which knows docs/PROTOCOL.md and nothing of the crates, and lays what comes of that beside the trace: each read
and write with its bytes, each answer, each dispatch and each reset, in their order. The first line that is otherwise is told on
standard error, and the status is 1; where the file can't be read or a line is bad it is 2, and so it is of a run on threads, which
no script decides.
"""
import bisect
import os
import re
import sys

sys.dont_write_bytecode = True
sys.path.insert(0, os.path.dirname(os.path.abspath(__file__)))
import model
import replay_trace
import wire
from replay_trace import Wrong
from sides import PAIRS, ROWS
from wire import BANNER, CLIENT_IDENT, MESSAGE, MISSING_FEATURES, PREAMBLE, RECONNECT, RECONNECT_OK, RESET, RETRY, RETRY_GLOBAL

TAKES = ("accept", "accept_over", "accept_reset", "accept_again", "accept_replace", "accept_race", "resume")
NAMES = wire.NAMES | {  # as a picture has them
    CLIENT_IDENT: "IDENT", MISSING_FEATURES: "MISSING_FEATURES", RECONNECT: "RECONNECT", RESET: "RESET", RETRY: "RETRY",
    RETRY_GLOBAL: "RETRY_GLOBAL", RECONNECT_OK: "RECONNECT_OK", MESSAGE: "MSG",
}

NAME, NUMBER, BYTES = "[a-z0-9_]{1,16}", "0|[1-9][0-9]*", "-|(?:[0-9a-fA-F]{2})+"
WORDS = {  # what a word of each kind looks like
    "name": NAME, "number": NUMBER, "bytes": BYTES, "word": "[a-z_]+", "mark": f"[a-z_]+|{NUMBER}", "text": "[!-~]+",
    "socket": f"{NAME}-{NAME}/[1-9][0-9]*", "ask": "ident|reconnect", "path": "fast|queued", "full": "full|part",
    "entity": "mon|mds|osd|client|mgr", "cause": "posted|dialled|waited", "flag": "yes|no", "phase": "absent|connecting|ident_sent|reconnect_sent|ready|standby|wait",
    "address": r"[0-9]+(?:\.[0-9]+){3}:[0-9]+/[0-9]+", "untold": "-",
}
RANGES = {  # of numbers that stand in a scenario
    "kind": (0, 65535), "priority": (64, 255), "cut": (0, 1048576), "place": (1, 4294967295), "count": (0, 2**64 - 1), "round": (1, 1),
}
SCRIPT = {  # the lines of the script, as they are played; of a kind with * there may be any number of words
    "node": "name entity address text*", "link": "name name word word", "post": "name name kind priority bytes bytes bytes",
    "dial": "name name", "down": "name name", "cut": "name name cut", "turn": "name number", "settle": "round",
    "flow": "name name number*", "fault": "name name number*", "threads": "", "off": "name", "limit": "number",
}
OF_SIM, OF_THREADS = ("settle", "flow", "fault"), ("off", "limit")  # the lines of the one script alone
OPTIONS = {"centers": (1, 4), "fast": (0, 65535), "throttle": (0, 2**32 - 1), "supports": (0, 2**64 - 1), "requires": (0, 2**64 - 1)}
MOVED = {"read": "socket number", "wrote": "socket number bytes", "closed": "socket word*"}
JOURNAL = MOVED | {
    "post": "number", "dial": "", "opened": "socket cause", "asked": "ask number", "numbered": "number", "acked": "number",
    "judged": "number socket ask number number number number number word mark mark*", "accepted": "number number path",
    "obeyed": "full", "down": "word",
}
TRAIL = MOVED | {"accepted": "socket"}
TOLD = {  # what else a node's line tells, by its second word: dispatches, and behind them where the record towards a peer stands and what is
    # out of the throttle
    "from": "name number path number bytes bytes bytes", "reset": "name",
    "session": "name phase number number number number flag number number number number number number",
    "throttle": "number",
}
UNTOLD_OF_THREADS = 6, 8  # of the words of where a record stands: until when it waits, and what the throttle has granted
ON_THREADS = {
    "session": "name phase number number number number flag untold number untold number number number",
}


class BadTrace(Exception):
    def __init__(self, line, said):
        super().__init__(f"line {line}: {said}")


class Row:
    """A turn, or a line of the script between turns, with what the nodes did in it."""

    def __init__(self, line, words):
        self.line, self.words, self.events = line, words, []
        self.sessions = {}  # of a node and its peer where the record stands behind it, where that changed
        self.out = None  # how many bytes its node's throttle has out behind it, where that changed
        self.what = words[0]
        self.node = words[1] if self.what in ("turn", "post", "dial", "down") else None
        self.moment = int(words[2]) if self.what == "turn" else None


class Event:
    """One thing that a node did, or that was done to an end of a socket: what, with which peer, at which socket."""

    def __init__(self, line, row, node, what, peer=None, socket=None, words=()):
        self.line, self.row, self.node, self.what, self.peer, self.socket, self.words = line, row, node, what, peer, socket, words
        self.named = None  # of a judgement the row of its table, which stands behind its answer
        row.events.append(self)


class Moves:
    """The events in which bytes moved, and how many had moved by then."""

    def __init__(self):
        self.events, self.counts = [], []

    def add(self, event, count):
        self.events.append(event)
        self.counts.append(count)

    def at(self, place):
        """The event with which so many bytes had moved, or None."""
        found = bisect.bisect_left(self.counts, place)
        return self.events[found] if found < len(self.events) else None


class End:
    """One side of a socket: what it put, how much it got, and in which event each byte moved."""

    def __init__(self, node):
        self.node, self.put, self.got = node, bytearray(), 0
        self.writes, self.reads = Moves(), Moves()
        self.opened = self.failed = self.closed = self.cut = None
        self.left = None  # how many bytes pass before the cut


class Socket:
    def __init__(self, name, opener, acceptor, number):
        self.name, self.opener, self.acceptor, self.number = name, opener, acceptor, number
        self.ends = {opener: End(opener), acceptor: End(acceptor)}
        self.flights, self.judged, self.accepted = [], [], []  # the frames, and the events in which asks were judged and messages accepted

    def other(self, node):
        return self.ends[self.acceptor if node == self.opener else self.opener]


class Flight:
    """A banner or a frame on its way: who wrote it, how much of it was written and read, and in which events the last bytes were."""

    def __init__(self, writer, tag, start, end, frame=None):
        self.writer, self.tag, self.start, self.end, self.frame = writer, tag, start, end, frame
        self.written = self.read = None
        self.put = self.got = 0
        self.says = {}
        if frame and tag == MESSAGE:
            self.says = frame.header()
        elif frame:
            self.says = frame.control()

    def moved(self):
        """How much of a frame that isn't whole at the reader was written or read."""
        if self.written:
            return f"{self.got} of {self.put} bytes" if self.got else ""
        return f"{self.put} of {self.end - self.start} bytes" if self.put >= PREAMBLE else f"{self.put} bytes"

    def label(self):
        name = NAMES.get(self.tag, f"TAG {self.tag}")
        if self.frame and self.frame.aborted:
            return f"{name} aborted"
        if self.tag == RESET and self.says:
            return f"{name} {'full' if self.says['full'] else 'part'}"
        told = [str(self.says[key]) for key in ("seq", "number") if key in self.says]
        told += [f"global {self.says['global']}"] if "global" in self.says else []
        return " ".join([name, *told])


class Run:
    def __init__(self):
        self.caption, self.nodes, self.links, self.sockets, self.rows, self.cuts = [], {}, [], {}, [], {}
        self.feeds, self.moment, self.policies = {}, 0, {}
        self.on_threads, self.off = False, set()
        self.lines = []  # those that say something, each with its number

    def is_linked(self, a, b):
        return (a, b) in self.links or (b, a) in self.links

    def between(self, a, b):
        return [socket for socket in self.sockets.values() if {socket.opener, socket.acceptor} == {a, b}]


class Reader:
    def __init__(self):
        self.run, self.row, self.line = Run(), None, 0

    def must(self, holds, said):
        if not holds:
            raise BadTrace(self.line, said)

    def fit(self, what, form, words):
        """The words are of the form's kinds."""
        kinds = [kind for kind in form.split() if not kind.endswith("*")]
        if form.endswith("*"):
            kinds += [form.split()[-1][:-1]] * (len(words) - len(kinds))
        self.must(len(words) == len(kinds), f"`{what}` has another number of words")
        for word, kind in zip(words, kinds):
            least, most = RANGES.get(kind, (0, None))
            looks = WORDS.get(kind, NUMBER)
            self.must(re.fullmatch(looks, word) and (kind not in RANGES or least <= int(word) <= most), f"`{word}` is no {kind}")

    # -- lines of the script

    def script(self, words):
        what, *rest = words
        self.must(what in SCRIPT, f"`{what}` begins no line")
        self.fit(what, SCRIPT[what], rest)
        run = self.run
        self.must(what not in (OF_SIM if run.on_threads else OF_THREADS), f"`{what}` is no line of this run")
        if what == "threads":
            self.must(not run.rows, "`threads` stands behind another line")
            run.on_threads = True
        elif what == "off":
            run.off.update(rest)
        if what == "node":
            self.new_node(*rest)
        else:
            names = rest[: SCRIPT[what].split().count("name")]
            for name in names:
                self.must(name in run.nodes, f"no node {name} above")
            self.must(len(names) < 2 or what == "link" or run.is_linked(*names), f"no link of {' and '.join(names)} above")
        self.row = Row(self.line, words)
        run.rows.append(self.row)
        if what == "link":
            self.must(rest[0] != rest[1] and not run.is_linked(*rest[:2]), "a link to itself, or a second one")
            self.must((rest[2], rest[3]) in PAIRS or (rest[3], rest[2]) in PAIRS, "no link has these two policies")
            run.links.append((rest[0], rest[1]))
            run.policies |= {(rest[0], rest[1]): rest[2], (rest[1], rest[0]): rest[3]}
        elif what == "turn":
            self.must(self.row.moment == run.moment, f"the moment of this turn is {run.moment}")
            run.moment += 1
        elif what in ("flow", "fault") and len(rest) > 2:
            self.fit(what, "place count" if what == "flow" else "place", rest[2:])
        if what == "fault":
            self.fault(*rest)

    def new_node(self, name, entity, address, *options):
        """A node with an address of its own, and each option at most once."""
        self.must(name not in self.run.nodes, f"node {name} stands above")
        ip, port, nonce = re.fullmatch("(.*):(.*)/(.*)", address).groups()
        parts = [(part, 255) for part in ip.split(".")] + [(port, 65535), (nonce, 2**32 - 1)]
        self.must(all(re.fullmatch(NUMBER, part) and int(part) <= most for part, most in parts) and port != "0", f"`{address}` is no address")
        self.must(all(other[1].split("/")[0] != f"{ip}:{port}" for other in self.run.nodes.values()), f"{ip}:{port} stands above")
        self.must(len(options) % 2 == 0 and len(set(options[::2])) == len(options) / 2, "an option stands twice, or without its number")
        for option, numbers in zip(options[::2], options[1::2]):
            self.must(option in OPTIONS, f"`{option}` is no option")
            least, most = OPTIONS[option]
            numbers = numbers.split(",") if option == "fast" else [numbers]
            self.must(all(re.fullmatch(NUMBER, it) and least <= int(it) <= most for it in numbers), f"`{','.join(numbers)}` is none of {option}")
        self.run.nodes[name] = [entity, address, *options]

    def fault(self, a, b, number=None):
        between = [s for s in self.run.between(a, b) if number in (None, str(s.number))]
        if between and not between[-1].ends[a].closed and not between[-1].ends[a].failed:
            between[-1].ends[a].failed = Event(self.line, self.row, a, "fault", b, between[-1])

    # -- lines of nodes

    def node_line(self, words):
        self.must(len(words) > 2, "a node's line has three words at least")
        node, what, *rest = words
        self.must(node in self.run.nodes, f"no node {node} above")
        if what == "node":
            return self.fit("node", "number " * 7, rest)
        self.must(self.row and self.row.node == node, f"{node} does something, and it isn't its turn or its line")
        if what == "journal":
            self.must(self.run.is_linked(node, rest[0]), f"no link of {node} and {rest[0]} above")
            return self.entry(JOURNAL, node, rest[0], rest[1:])
        if what == "trail":
            return self.entry(TRAIL, node, None, rest)
        self.must(what in TOLD, f"`{what}` is nothing that a node does")
        if what == "throttle":
            self.must(not self.run.on_threads, "what a throttle has out isn't told of a run on threads")
            self.fit(what, TOLD[what], rest)
            self.row.out = int(rest[0])
            return None
        self.must(self.run.is_linked(node, rest[0]), f"no link of {node} and {rest[0]} above")
        self.fit(what, (ON_THREADS if self.run.on_threads else {}).get(what, TOLD[what]), rest)
        if what == "session":
            self.row.sessions[node, rest[0]] = rest[1:]
        else:
            Event(self.line, self.row, node, what, rest[0], None, rest[1:])

    def entry(self, forms, node, peer, words):
        what, *rest = words or ("",)
        self.must(what in forms, f"`{what}` is no entry")
        self.fit(what, forms[what], rest)
        if what in ("post", "dial") or rest == ["planned"]:
            self.must(self.row.words[:3] == [what, node, peer], f"no line of the script says that {node} does this")
        place = forms[what].split().index("socket") if "socket" in forms[what].split() else None
        socket = None
        if place is not None:
            socket = self.opened(node, rest[place]) if what == "opened" else self.socket(node, rest[place])
            peer = socket.other(node).node
        event = Event(self.line, self.row, node, what, peer, socket, rest)
        if what == "accepted" and forms is TRAIL:
            event.what = "took"
        handle = getattr(self, f"on_{event.what}", None)
        if handle:
            handle(event)

    def opened(self, node, name):
        pair, _, turn = name.partition("/")
        opener, acceptor = pair.split("-")
        self.must(opener == node and self.run.is_linked(opener, acceptor), f"{node} can't open {name}")
        before = [s for s in self.run.between(opener, acceptor) if s.opener == opener]
        self.must(int(turn) == len(before) + 1, f"{name} isn't the next socket that {opener} opens to {acceptor}")
        socket = Socket(name, opener, acceptor, len(self.run.between(opener, acceptor)) + 1)
        self.run.sockets[name] = socket
        cuts = self.run.cuts.get((opener, acceptor), [])
        socket.ends[opener].left = cuts[len(before)] if len(before) < len(cuts) else None
        return socket

    def socket(self, node, name):
        self.must(name in self.run.sockets, f"{name} isn't opened")
        socket = self.run.sockets[name]
        self.must(node in socket.ends, f"{node} has no end of {name}")
        end = socket.ends[node]
        self.must(end.opened or node == socket.acceptor, f"{name} isn't opened")
        self.must(not end.closed, f"{node} has closed its end of {name}")
        return socket

    def on_opened(self, event):
        end = event.socket.ends[event.node]
        end.opened = event
        self.run.feeds[event.node, event.peer] = event.socket
        self.pass_bytes(end, event, 0)

    def on_took(self, event):
        end = event.socket.ends[event.node]
        self.must(event.node == event.socket.acceptor and not end.opened, f"{event.node} can't accept {event.socket.name}")
        end.opened = event

    def on_wrote(self, event):
        end, count, data = event.socket.ends[event.node], int(event.words[1]), bytes.fromhex(event.words[2].strip("-"))
        self.must(end.opened, f"{event.socket.name} isn't accepted")
        self.must(count == len(data), f"{count} bytes were written, and {len(data)} stand here")
        end.put += data
        end.writes.add(event, len(end.put))
        self.pass_bytes(end, event, count)

    def on_read(self, event):
        end, count = event.socket.ends[event.node], int(event.words[1])
        self.must(end.opened, f"{event.socket.name} isn't accepted")
        end.got += count
        self.must(end.got <= len(event.socket.other(event.node).put), "more is read than was written")
        end.reads.add(event, end.got)
        self.pass_bytes(end, event, count)

    def on_closed(self, event):
        event.socket.ends[event.node].closed = event
        if self.run.feeds.get((event.node, event.peer)) is event.socket:
            del self.run.feeds[event.node, event.peer]

    def on_judged(self, event):
        *event.words, event.named = event.words
        rows = ROWS[event.words[2]]
        self.must(event.named in rows, f"`{event.named}` is no row by which {'an ident' if rows is ROWS['ident'] else 'a reconnect'} is judged")
        event.socket.judged.append(event)
        if event.words[8] in TAKES:
            self.run.feeds[event.node, event.peer] = event.socket

    def on_accepted(self, event):
        event.socket = self.run.feeds.get((event.node, event.peer))
        self.must(event.socket, f"{event.node} accepts a message of {event.peer} without a socket")
        event.socket.accepted.append(event)

    def pass_bytes(self, end, event, count):
        """A cut end is cut by the event with which the last byte passes."""
        if end.left is None or end.cut:
            return
        end.left -= count
        self.must(end.left >= 0, "more passes than the cut lets pass")
        if end.left == 0:
            end.cut = Event(event.line, self.row, end.node, "cut", event.peer, event.socket)

    # -- the whole

    def read(self, text):
        for a, b, count in re.findall(f"^cut ({NAME}) ({NAME}) ({NUMBER})$", text, re.M):  # wherever they stand
            self.run.cuts.setdefault((a, b), []).append(int(count))
        for line in replay_trace.lines_of(text):
            self.line += 1
            words = line[2:].split(" ") if line.startswith("  ") else line.split(" ")
            if line.startswith("#"):
                if not self.run.nodes:
                    self.run.caption.append(line[1:].strip())
            elif line.strip():
                self.must(all(words), "words have one space between them, and a node's line begins with two")
                (self.node_line if line.startswith("  ") else self.script)(words)
                self.run.lines.append((self.line, line))
        for socket in self.run.sockets.values():
            self.flights(socket)
        return self.run

    def flights_of(self, socket, end):
        try:
            return flights_of(end.node, end.put)
        except wire.BadStream as wrong:
            line = next(event.line for event, count in zip(end.writes.events, end.writes.counts) if is_wrong(end.node, end.put[:count]))
            raise BadTrace(line, f"what {end.node} wrote to {socket.name} isn't msgr2: {wrong}") from None

    def flights(self, socket):
        for end in socket.ends.values():
            flights = self.flights_of(socket, end)
            for flight in flights:
                flight.put, flight.got = (max(0, min(moved, flight.end) - flight.start) for moved in (len(end.put), socket.other(end.node).got))
                flight.written, flight.read = end.writes.at(flight.end), socket.other(end.node).reads.at(flight.end)
            socket.flights += flights
        messages = {(flight.writer, flight.says["seq"]) for flight in socket.flights if "seq" in flight.says and flight.read}
        for event in socket.accepted:
            self.line = event.line
            self.must((event.peer, int(event.words[0])) in messages, f"message {event.words[0]} isn't on {socket.name}")


def is_wrong(writer, put):
    """What was put so far is no start of a stream."""
    try:
        flights_of(writer, put)
    except wire.BadStream:
        return True
    return False


def flights_of(writer, put):
    """The banner and the frames of what was written; the last may be cut short."""
    flights, at = [], 0
    if put:
        flights.append(Flight(writer, BANNER, 0, wire.banner_length(put) or len(wire.banner())))
        at = flights[0].end
    for frame in wire.frames_of(put):
        flights.append(Flight(writer, frame.tag, frame.start, frame.end, frame))
        at = frame.end
    if at < len(put):
        head = bytes(put[at : at + PREAMBLE])
        length = wire.length_of(head)[0] if len(head) == PREAMBLE else 0
        flights.append(Flight(writer, put[at], at, max(at + length, len(put) + 1)))
    return flights


# ---- the replay


def due_lines(script):
    """The lines of the trace of this script, in which a round stands with its turns."""
    played, at = model.Run(), 0
    played.declare(script)
    while at < len(script):
        words = script[at]
        yield from played.play_round() if words[0] == "settle" else played.play_step(words)
        at += 1 + (len(played.nodes) if words[0] == "settle" else 0)


def check(run):
    """Raises Wrong where the trace isn't that of its script by docs/PROTOCOL.md."""
    if run.on_threads:
        raise Wrong("no script decides a run on threads")
    script = [line.split(" ") for _, line in run.lines if not line.startswith(" ")]
    replay_trace.compare(run.lines, due_lines(script))


def read_run(text):
    return Reader().read(text)


def is_scenario(text):
    """A scenario and no trace: two nodes are linked, and nobody tells anything."""
    return bool(re.search("^ *link ", text, re.M)) and not re.search(f"^  {NAME} (node|journal) ", text, re.M)


def wants_a_trace(file):
    return f"{file} is a scenario, and the trace of its run is wanted: `./msgr2 trace {file} > FILE` makes one"


def main():
    if len(sys.argv) != 2 or sys.argv[1].startswith("-"):
        replay_trace.refuse(f"one file is wanted; {__doc__.split(chr(10) * 2)[1]}")
    text = replay_trace.read_file(sys.argv[1])
    if is_scenario(text):
        replay_trace.refuse(wants_a_trace(sys.argv[1]))
    try:
        run = read_run(text)
        if run.on_threads:
            replay_trace.refuse(f"{sys.argv[1]} is the trace of a run on threads, which no script decides: tools/kept_trace replays it as it makes it")
        check(run)
    except BadTrace as bad:
        replay_trace.refuse(f"{sys.argv[1]} is no trace of a run: {bad}")
    except Wrong as wrong:
        print(f"run_trace.py: {wrong}", file=sys.stderr)
        sys.exit(1)


if __name__ == "__main__":
    main()
