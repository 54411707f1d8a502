"""What is kept of a run on threads, as the plain program of tools/kept_run prints it: read, and replayed link by link.

Its text is described in the head of tools/kept_run/main.txt. `Kept(text)` reads it, and `replayed(kept, nodes, links)` has each side
of each link do what its entries say, by docs/PROTOCOL.md alone (tools/sides.py). The first thing that doesn't follow is told.
checks/kept_run.py holds such texts against the definition of a kept run, and tools/kept_trace makes a trace of one.
"""
import collections

import wire
from replay_trace import Given, Side, Wrong, compare, flags, must
from sides import End

ONCE = "node", "port", "counts", "address", "state", "faults", "halves", "start", "stop", "left"  # kinds of lines of which no rule makes one

# what a text comes to that no run keeps
REFUSED = (Wrong, wire.BadStream, ValueError, KeyError, IndexError, TypeError, StopIteration, RuntimeError)


# ---- the scenario


class Node:
    def __init__(self, name, words):
        self.name, self.address = name, wire.Address.of(words[1])
        self.started, self.plans, self.cuts = True, collections.defaultdict(list), []
        options = dict(zip(words[2::2], words[3::2]))
        self.centers = int(options.get("centers", 1))
        self.fast = tuple(int(kind) for kind in options.get("fast", "").split(",") if kind)


def scenario(lines):
    """The nodes, in order, and the links as pairs of places with their policies."""
    nodes, place, links = [], {}, []
    for line in lines:
        what, *words = line.split()
        if what == "node":
            place[words[0]] = len(nodes)
            nodes.append(Node(words[0], words[1:]))
        elif what == "link":
            links.append((place[words[0]], place[words[1]], words[2], words[3]))
        elif what == "off":
            nodes[place[words[0]]].started = False
        elif what == "cut":
            nodes[place[words[0]]].cuts.append((place[words[1]], int(words[2])))
        elif what in ("post", "dial", "down"):
            nodes[place[words[0]]].plans[place[words[1]]].append([what, *words[2:]])
    return nodes, links


# ---- what is kept


class Kept:
    def __init__(self, text):
        self.started, self.centers, self.halves, self.ports = {}, {}, {}, {}
        self.made, self.inner, self.counts = (collections.defaultdict(list) for _ in range(3))
        self.home, self.records, self.loose, self.order = {}, collections.defaultdict(Given), {}, []
        self.heads, self.faults, self.calls, self.run = {}, {}, collections.defaultdict(list), {}
        self.logs = collections.defaultdict(list)  # of a thread and a path what it called, or has handed on, each with its peer
        self.node_logs = collections.defaultdict(list)  # of a node what its dispatchers were called with, so
        self.lines, self.seen = collections.defaultdict(list), set()
        for place, line in enumerate(text.splitlines(), 1):
            head, what, *words = line.split(" ")
            self.take(place, head, what, words)
            if what not in ONCE:
                self.lines[head].append((place, line[len(head) + 1 :]))
        must(len(self.order) == sum(self.halves.values()), "there are as many halves as the nodes left")

    def take(self, place, head, what, words):
        if what in ONCE:
            key = head, what, words[0] if what == "faults" else ""
            must(key not in self.seen, f"line {place} stands twice")
            self.seen.add(key)
        if head == "run":
            self.run[what] = words if what == "ended" else int(words[0])
        elif what == "faults":
            self.faults[head, words[0]] = int(words[1])
        elif head == "loose":
            if words[1] not in self.loose:
                self.loose[words[1]] = []
                self.order.append(words[1])
            self.loose[words[1]].append((place, what, words))
        elif what == "node" and head.isdigit():
            self.started[int(head)], self.centers[int(head)] = words[0] == "yes", int(words[1])
        elif what == "halves":
            self.halves[int(head)] = int(words[0])
        elif what == "port":
            self.ports[head] = words[0] == "yes"
        elif what == "counts":
            self.counts[head] = words
        elif what in ("made", "inner"):
            getattr(self, what)[head].append(words[0])
        elif what == "has":
            k, p = int(head.split(".")[0]), int(words[0])
            must((k, p) not in self.home, f"node {k} has two records towards node {p}")
            self.home[k, p] = head
        elif "/" in head:
            center, rest = head.split("/")
            path, peer = rest.split("-")
            k = int(center.split(".")[0])
            if path == "log":
                self.node_logs[k].append((int(peer), words))
                return
            self.calls[k, int(peer)].append((path, words))
            self.logs[center, path].append((int(peer), words))
        else:
            k, p = map(int, head.split("-"))
            if what in ("address", "node"):
                self.heads[k, p, what] = words
            self.records[k, p].add(what, words)

    def loose_of(self, k):
        """The sockets of a node's halves: they stand with those of the last node first."""
        end = len(self.order) - sum(count for node, count in self.halves.items() if node < k)
        return self.order[end - self.halves[k] : end]


def opener_and_target(socket):
    """IP:PORT of both, from IP:PORT>IP:PORT/TURN."""
    return socket.rsplit("/", 1)[0].split(">")


# ---- a record and the halves of its peer, replayed


class KeptSide(Side):
    """A side of a link as it is kept. What it shares with its node's other records is taken from its entries: which numbers it drew.

    `steps` has what it did in the words of the trace of a run: of each step the entries, with where the record stands behind it.
    `halves_did` has the same of each half."""

    def __init__(self, kept, nodes, k, p):
        super().__init__("a", kept.records[k, p], "b")
        self.name, self.place, self.faults = f"{k}-{p}", k, kept.faults
        self.node_words = kept.heads[k, p, "node"]
        words = [int(word) for word in self.node_words]
        self.entity, self.number, self.salt, self.supports, self.requires, self.first_wait, self.most_wait = words
        self.address, self.peers_address, self.fast = nodes[k].address, nodes[p].address, nodes[k].fast
        self.given.handed = len(kept.calls.get((k, p), []))  # so many parcels were handed on at least
        self.next_number = None
        self.steps, self.halves_did, self.in_full = [], collections.defaultdict(list), []

    def draw(self):
        must(self.next_number is not None, "a global number is drawn, and the entry has none")
        return self.next_number

    def record_of(self, address):
        wire.must(address == str(self.peers_address), "an ask of another address")
        return self.record

    # ---- in the words of the trace of a run

    def tell_entry(self, record, words):
        self.in_full.append(self.with_cause(words))
        super().tell_entry(record, words)

    def tell_trail(self, words):
        what, socket, *rest = words
        if what == "closed" and not self.is_answered_last(socket):
            rest = ["failed"]
        self.halves_did[socket].append(self.with_cause([what, socket, *rest]))
        super().tell_trail(words)

    def with_cause(self, words):
        """An end is closed as it had come to its end, where none of its calls failed and a read found that."""
        what, socket, *rest = [*words, ""]
        if what == "closed" and rest[0] == "failed" and self.given.flags[socket][3] and not self.count_of_faults(socket):
            return [what, socket, "ended"]
        return words

    def is_answered_last(self, socket):
        """Whether nothing was moved on it since an ask on it was judged."""
        after = self.given.after.get(socket, [])
        return bool(after) and len(self.halves_did[socket]) - 1 == after[-1]

    # ---- the replay

    def count_of_faults(self, socket):
        count = self.faults.get((self.name, socket), self.faults.get(("loose", socket)))
        must(count is not None, f"{self.name}: no line tells the faults of {socket}")
        return count

    def has_failed(self, socket):
        """Whether a call of the end failed, or a read found the other end: what came is no fault by itself then."""
        return self.count_of_faults(socket) > 0 or self.given.flags[socket][3]

    def follow(self, entry):
        is_new = not self.told
        if entry[0] in ("asked", "judged"):
            self.next_number = int(entry[2 if entry[0] == "asked" else 1])
        super().follow(entry)
        self.next_number = None
        if is_new:
            self.steps.append(([], None))
        self.steps[-1] = [*self.steps[-1][0], self.in_full.pop(0)], self.record.standing()

    def on_closed(self, entry):
        if self.record.feed:
            self.record.feed.fails = self.has_failed(entry[1])
        self.step(entry)

    def on_wrote(self, entry):
        feed = self.record.feed
        if feed:
            feed.cut = self.taken_by("wrote", entry[2:])
        self.step(entry)
        if feed:
            feed.cut = None

    def on_opened(self, entry):
        self.hand_all()
        must(self.record.connects(2**64), f"no connect is due in {self.record.phase}")
        must(opener_and_target(entry[1])[1] == self.peers_address.place(), f"{entry[1]} goes elsewhere")
        self.opened.append(entry[1])
        self.record.open(self.end(entry[1]))

    def taken_by(self, what, words):
        """How much of what is composed an end takes no rule decides."""
        return int(words[0]) if what == "wrote" else None

    def end(self, socket):
        """Of a socket that it opened it has seen the peer's address, and of one of the peer the one that it came from."""
        seen = self.peers_address if socket in self.opened else wire.Address.of(opener_and_target(socket)[0] + "/0")
        end = self.ends[socket] = End(self, socket, seen)
        end.source, self.moves[socket] = bytearray(self.given.got.get(socket, b"")), []
        return end

    # ---- its lines

    def trail_lines(self, what, socket):
        yield f"{what} named {socket} {self.entity}"
        yield from list(super().trail_lines(what, socket))[1:]

    def end_lines(self, what, socket):
        """Whether a read found nothing, a write had to wait, and a read found the other end, no rule decides."""
        lines = super().end_lines(what, socket)
        next(lines)
        yield f"{what} socket {socket} {flags(self.ends[socket].closed, *self.given.flags[socket][1:])}"
        yield from lines

    def lines(self):
        """Those of its record, and behind them those of its halves that it didn't take; what was handed on isn't among them."""
        for line in super().lines():
            if line.split(" ", 1)[0] not in ("address", "node", "state", "handed"):
                yield line.replace("half ", "loose ", 1).replace("half_end ", "loose_end ", 1) if line.startswith("half") else line


def replay_link(kept, nodes, a, b, policies):
    """Both sides of a link, replayed: what each record and each half did follows from its plan and from what was read."""
    sides = {}
    for k, p in ((a, b), (b, a)):
        given, lines = kept.records[k, p], list(kept.lines[f"{k}-{p}"])
        theirs = {entry[1] for entry in kept.records[p, k].journal if entry[0] == "opened"}
        judged = {entry[2] for entry in given.journal if entry[0] == "judged"}
        for socket in kept.loose_of(k):
            if socket in theirs | judged:
                for place, what, words in kept.loose[socket]:
                    given.add(what, words)
                    lines.append((place, " ".join([what, *words])))
        sides[k] = KeptSide(kept, nodes, k, p), lines
    for k, p, policy in ((a, b, policies[0]), (b, a, policies[1])):
        side, lines = sides[k]
        side.replay(policy, sides[p][0])
        # in the order in which the replay came to the halves
        of_record = [it for it in lines if not it[1].startswith("loose")]
        due = list(side.lines())
        compare(of_record, [line for line in due if not line.startswith("loose")])
        must(sorted(line for _, line in lines if line.startswith("loose")) == sorted(line for line in due if line.startswith("loose")),
             f"{side.name}: the halves that it didn't take did something else")
    both = {k: side for k, (side, _) in sides.items()}
    for k, p in ((a, b), (b, a)):
        for socket in both[k].opened:
            check_bytes(both, socket, k, p)
    return both


def check_bytes(sides, socket, opener, target):
    """What each end got is the first of what the other end has put."""
    for reader, writer in ((opener, target), (target, opener)):
        got = sides[reader].given.got.get(socket, b"")
        put = sides[writer].given.put.get(socket, b"")
        must(put.startswith(got), f"{socket}: node {reader} has got other bytes than node {writer} has put")
