#!/usr/bin/env python3
"""Lays a replay of its own beside a trace of two records, as `record_trace` prints it.

usage: tools/replay_trace.py TRACE

It knows docs/PROTOCOL.md and nothing of the crates. Of each side it takes from the trace what no rule decides: the plan,
the order of the journal's entries, how many bytes each read got, and when an end failed. A side of tools/sides.py does
what the entries say, one after another, and every line follows from that: each frame that is composed, each answer, what
is handed out, and where the session stands. What a side has read is what the other one has written. The first line that
is otherwise is told on standard error, and the status is 1; where the file can't be read it is 2.

Left open is what nothing in a trace determines: the moments of a `state` line, whether the last read of an end that is no
feed found nothing, how many bytes flowed that nobody read, and in which order the two opened sockets.
"""
import os
import sys

sys.dont_write_bytecode = True
sys.path.insert(0, os.path.dirname(os.path.abspath(__file__)))
import wire
from sides import DISCARD, MOVED, PAIRS, POLICIES, READY, REMOTE_RESET, End, Half, Message, Record

# "A schedule": its sides
ADDRESSES = {"a": "127.0.0.1:7001/1", "b": "127.0.0.1:7002/2"}
OSD, SALT, ALL_FEATURES, FIRST_WAIT, MOST_WAIT = 4, 7, 2**64 - 1, 100, 400
FOREVER = 2**64  # a moment at which no wait is on
SHOWN = 100  # letters of a line that is told


class Wrong(Exception):
    """What isn't so in a trace."""


class NoTrace(Exception):
    """A line that no trace has."""


def must(holds, said):
    if not holds:
        raise Wrong(said)


def compare(lines, due):
    """The lines, each with its number, are those that are due; the first that isn't is told."""
    due = iter(due)
    for place, line in lines:
        right = next(due, None)
        if line != right:
            raise Wrong(difference(place, line, right))
    for right in due:
        raise Wrong(f"the trace ends, and `{shortened(right)}` is due")


def lines_of(text):
    return text.split("\n")[: -1 if text.endswith("\n") else None]


def difference(place, line, right):
    """What to say of a line and the one that is due in its place, if there is one."""
    if right is None:
        return f"line {place}: `{shortened(line)}` stands behind all that is due"
    words, others = line.split(" "), right.split(" ")
    differing = [(word, other) for word, other in zip(words, others) if word != other]
    if len(words) != len(others) or len(differing) != 1:
        return f"line {place}: `{shortened(line)}` stands where `{shortened(right)}` is due"
    return f"line {place}: `{shortened(line)}` has {which(*differing[0])}"


def which(word, other):
    """One word and the one that is due; of bytes the first that differ."""
    if max(len(word), len(other)) <= 40:
        return f"`{word}` where `{other}` is due"
    at = len(os.path.commonprefix([word, other])) // 2 * 2
    return f"`{word[at : at + 16]}` at byte {at // 2} where `{other[at : at + 16]}` is due"


def shortened(line):
    return line if len(line) <= SHOWN else f"{line[: SHOWN - 2]}.."


def bytes_of(word):
    return b"" if word == "-" else bytes.fromhex(word)


def word_of(data):
    return bytes(data).hex() or "-"


def flags(*values):
    return " ".join("yes" if value else "no" for value in values)


# ---- what is taken from the trace


class Given:
    """Of a side, what no rule decides; and what tells how far it had come behind its last entry."""

    def __init__(self):
        self.policy, self.plan, self.journal = None, [], []
        self.trails, self.after = {}, {}  # of a socket the entries of its half, and how many there were at each judgement
        self.flags, self.got, self.put, self.moments = {}, {}, {}, None
        self.composed, self.handed = b"", 0

    def add(self, what, words):
        """Takes from a line what is needed of it."""
        if what == "address":
            self.policy = tuple(word == "yes" for word in words[1:5])
        elif what in ("plan", "journal"):
            getattr(self, what).append(words)
        elif what in ("trail", "half", "loose") and words[0] == "after":
            self.after.setdefault(words[1], []).append(int(words[2]))
        elif what in ("trail", "half", "loose"):
            entries = self.trails.setdefault(words[1], [])
            entries += [[words[0], *words[2:]]] if words[0] not in ("named", "judged") else []
        elif words[0] == "socket":
            self.flags[words[1]] = [word == "yes" for word in words[2:6]]
        elif words[0] in ("got", "put"):
            getattr(self, words[0])[words[1]] = bytes_of(words[2])
        elif what == "state":
            self.moments = [int(word) for word in words[3:6]]
        elif what == "composed":
            self.composed = bytes_of(words[0])
        elif what == "handed":
            self.handed += 1


def read_trace(text):
    """Both sides as given, and the sockets: who opened it, its name, and how many bytes flowed from the opener and to it."""
    sides, wires = {"a": Given(), "b": Given()}, []
    for place, line in enumerate(lines_of(text), 1):
        try:
            side, what, *words = line.split(" ")
            if what == "opened":
                wires.append((side, words[0], int(words[1]), int(words[2])))
            else:
                sides[side].add(what, words)
        except (ValueError, KeyError, IndexError):
            raise NoTrace(f"line {place}, `{shortened(line)}`, is none of a trace of two records") from None
    return sides, wires


# ---- a side, driven by its journal


class Follower(Record):
    """A record that composes an acknowledgement before a message where it was written so: between composing it and its first
    byte a post may come."""

    def compose_next(self):
        return self.compose_acknowledgement() or super().compose_next()

    def compose_acknowledgement(self):
        feed = self.feed
        if self.phase != READY or not self.owes_ack or self.lossy or feed.is_to_be_put():
            return False
        behind = (self.node.given.put.get(feed.name, b"") + self.node.given.composed)[len(feed.text) :]
        if behind[:1] != bytes([wire.ACK]):
            return False
        self.node.hand_all()
        self.compose(wire.ACK, wire.words(self.accepted))
        return True


class Side:
    """One side as its entries have it; what a record and a half want of their node."""

    def __init__(self, name, given, peer):
        self.name, self.given, self.peer = name, given, peer
        self.entity, self.number, self.salt, self.supports, self.requires = OSD, "ab".index(name), SALT, ALL_FEATURES, 0
        self.first_wait, self.most_wait, self.fast, self.out, self.drawn = FIRST_WAIT, MOST_WAIT, (), 0, 0
        self.address = wire.Address.of(ADDRESSES[name])
        self.run = self
        self.told, self.handed = [], []  # entries that the given ones aren't compared with yet; letters and resets
        self.halves, self.ends, self.moves, self.judged = {}, {}, {}, {}  # by socket
        self.refused = {}  # by socket, of a half that was closed by the answer to its ask, that entry until its trail comes to it
        self.opened, self.trails, self.spent = [], [], []  # sockets, in the order in which they came to that

    # ---- what a record and a half ask of it

    def meets(self, *row):
        """Rows aren't counted here."""

    def tell_entry(self, record, words):
        """A trace of two records has no cause of a connect or of a closing, and no bytes that were written."""
        self.told.append(words[: {"opened": 2, "closed": 2, "wrote": 3}.get(words[0])])

    def tell_trail(self, words):
        if words[0] != "accepted":
            self.told.append(["trail", *words[: {"closed": 2, "wrote": 3}.get(words[0])]])

    def draw(self):
        self.drawn += 1
        return self.drawn

    def is_full_for(self, size):
        """The bound isn't told; what was accepted was granted."""
        return False

    def hand(self, record, parcel):
        if parcel != DISCARD:
            self.handed.append(parcel)

    def record_of(self, address):
        wire.must(address == ADDRESSES[self.peer], "an ask of another address")
        return self.record

    # ---- the journal

    def replay(self, policy, peer):
        self.record = Follower(self, peer, policy)
        for at, entry in enumerate(self.given.journal):
            try:
                self.follow(entry)
            except (Wrong, wire.BadStream, ValueError, IndexError, KeyError) as wrong:
                raise Wrong(f"side {self.name}, entry {at}, `{' '.join(entry)}`: {wrong}") from None
        for socket, entries in self.given.trails.items():
            self.walk(socket, len(entries))
            counts = len(self.given.after.get(socket, [])), len(self.judged.get(socket, []))
            must(counts[0] == counts[1], f"{counts[1]} asks of {socket} were judged, and {counts[0]} lines say behind which entry")
        self.rest()

    def follow(self, entry):
        """Does what is due until that tells an entry, which has to be this one."""
        if not self.told:
            getattr(self, f"on_{entry[0]}", self.step)(entry)
        must(self.told, "nothing of the kind is due")
        due = self.told.pop(0)
        must(due == entry, f"`{' '.join(due)}` is due")
        if entry[0] in ("read", "wrote"):
            self.moves[entry[1]].append((entry[0], entry[2]))
        elif entry[0] == "judged":
            self.judged.setdefault(entry[2], []).append(entry[3:-1])  # a trail has no row
        elif entry[0] == "closed":
            self.spent.append(entry[1])

    def step(self, entry):
        while not self.told and self.record.step(0) == MOVED:
            pass

    def on_read(self, entry):
        if self.record.feed:
            self.record.feed.readable = self.record.feed.got + int(entry[2])
        self.step(entry)

    def on_closed(self, entry):
        if self.record.feed:
            self.record.feed.fails = True
        self.step(entry)

    def on_post(self, entry):
        self.record.post(Message.of(self.planned("post")[1:]))

    def on_dial(self, entry):
        self.planned("dial")
        self.record.dial()

    def on_down(self, entry):
        self.planned("down")
        self.record.mark_down()

    def planned(self, what):
        """The next step of the plan; what is composed before it is composed by then."""
        self.record.compose_acknowledgement()
        plan, taken = self.given.plan, self.record.steps
        must(taken < len(plan) and plan[taken][0] == what, f"the plan has no {what} there")
        return plan[taken]

    def on_opened(self, entry):
        self.hand_all()
        must(self.record.connects(FOREVER), f"no connect is due in {self.record.phase}")
        name = f"{self.address.place()}>{wire.Address.of(ADDRESSES[self.peer]).place()}/{len(self.opened) + 1}"
        self.opened.append(name)
        self.record.open(self.end(name))

    def on_judged(self, entry):
        """The half on a socket of the peer does its trail up to there, and has its ask judged."""
        socket = entry[2]
        after, count = self.given.after.get(socket, []), len(self.judged.get(socket, []))
        must(count < len(after), f"{socket} has no ask that is judged here")
        self.record.compose_acknowledgement()
        half = self.walk(socket, after[count])
        while not self.told and half.move(0) == MOVED:
            pass
        self.refused[socket] = [words for words in self.told if words[0] == "trail"]
        self.told = [words for words in self.told if words[0] != "trail"]
        if half.is_taken:
            self.trails.append(socket)

    # ---- trails and ends

    def walk(self, socket, count):
        """The half on a socket of the peer does its trail up to so many entries."""
        half, entries = self.halves.get(socket), self.given.trails[socket]
        if half is None:
            half = self.halves[socket] = Half(self, self.end(socket))
            half.done = 0
        must(half.done <= count <= len(entries), f"{socket} has another number of entries by then")
        for what, *words in entries[half.done : count]:
            self.told += self.refused.pop(socket, [])
            must(self.told or not half.is_taken and not half.end.closed, f"the half on {socket} is over before its trail")
            half.end.readable = half.end.got + int(words[0]) if what == "read" else half.end.got
            half.end.fails = what == "closed" and self.has_failed(socket)
            half.end.cut = self.taken_by(what, words)
            while not self.told and half.move(0) == MOVED:
                pass
            half.end.cut = None
            must(self.told, f"`{' '.join([what, *words])}` isn't due on {socket}")
            due = self.told.pop(0)
            must(due == ["trail", what, socket, *words], f"`{' '.join(due)}` is due where the trail of {socket} has {what}")
            if what != "closed":
                self.moves[socket].append((what, words[0]))
        half.done = count
        return half

    def has_failed(self, socket):
        """Whether an end that is closed has failed: a trace of two records doesn't tell it of those that haven't."""
        return True

    def taken_by(self, what, words):
        """How many bytes an entry lets through; None: as many as there are, which an end in memory takes."""
        return None

    def end(self, socket):
        """This side's end of a socket, new; what it reads is what its log got."""
        end = self.ends[socket] = End(self, socket, wire.Address.of(ADDRESSES[self.peer]))
        end.source, self.moves[socket] = bytearray(self.given.got.get(socket, b"")), []
        return end

    def hand_all(self):
        while self.record.parcels:
            self.record.step(0)

    def rest(self):
        """What no entry tells may have been done behind the last one: a parcel handed out, a text composed."""
        record = self.record
        while record.parcels and len(self.handed) < self.given.handed:
            record.step(0)
        if record.feed and not record.parcels and word_of(record.feed.text[record.feed.put :]) != word_of(self.given.composed):
            record.step(0)
        must(not self.told, f"side {self.name}: more is done than the entries say")

    # ---- the lines

    def lines(self):
        """The side's lines of the trace, as they are by now."""
        given, record, feed = self.given, self.record, self.record.feed
        yield f"address {self.address} {flags(record.lossy, record.server, record.standby, record.resetcheck)}"
        yield f"node {OSD} {self.number} {SALT} {ALL_FEATURES} 0 {FIRST_WAIT} {MOST_WAIT}"
        yield from (f"plan {' '.join(words)}" for words in given.plan)
        yield from (f"journal {' '.join(words)}" for words in given.journal)
        for socket in self.trails:
            yield from self.trail_lines("trail", socket)
        if feed:
            yield from self.end_lines("feed", feed.name)
        for socket in self.spent:
            yield from self.end_lines("spent", socket)
        numbers = f"{record.client_cookie} {record.server_cookie} {record.peer_global} {record.connect}"
        yield f"session {record.phase} {numbers} {flags(record.lost_in_ready)}"
        is_dry = feed is not None and given.flags.get(feed.name, [False] * 4)[1]
        yield f"state {flags(is_dry, False, False)} {' '.join(map(str, given.moments or []))}"
        yield f"composed {word_of(feed.text[feed.put :]) if feed else '-'}"
        for what, is_closed in (("half", False), ("loose", True)):
            for socket, half in self.halves.items():
                if not half.is_taken and half.end.closed == is_closed:
                    yield from self.trail_lines(what, socket)
                    yield from self.end_lines(f"{what}_end", socket)
        for letter in self.handed:
            yield "handed reset" if letter == REMOTE_RESET else self.message_line(letter)

    def message_line(self, letter):
        message = letter.message
        return f"handed message {letter.number} {message.priority} queued {message.kind} {' '.join(message.words())}"

    def trail_lines(self, what, socket):
        yield f"{what} named {socket} {OSD}"
        for name, *words in self.given.trails[socket]:
            yield f"{what} {' '.join([name, socket, *words])}"
        for words in self.judged.get(socket, []):
            yield f"{what} judged {socket} {' '.join(words)}"
        for count in self.given.after.get(socket, []):
            yield f"{what} after {socket} {count}"

    def end_lines(self, what, socket):
        end, (_, is_dry, _, is_ended) = self.ends[socket], self.given.flags.get(socket, [False] * 4)
        yield f"{what} socket {socket} {flags(end.closed, is_dry, False, is_ended)}"
        for move, count in self.moves[socket]:
            yield f"{what} {move} {socket} {count}"
        yield f"{what} got {socket} {word_of(end.source)}"
        yield f"{what} put {socket} {word_of(end.text[: end.put])}"


# ---- both sides


def check_moments(side):
    """No connect fails in memory. A wait that begins sets the moment of the next dial."""
    must(side.given.moments and len(side.given.moments) == 3, f"side {side.name}: the line of the state is missing")
    next_dial, missed, last = side.given.moments
    must(missed == 0, f"side {side.name}: a connect failed, and in memory none does")
    wait = side.record.next_dial  # its moments are all 0 here, so that is the last wait itself
    must(next_dial >= wait and (wait > 0) == (next_dial > 0), f"side {side.name}: the next dial is at no end of a wait")
    must(last >= next_dial - wait, f"side {side.name}: a wait began behind the last entry")


def check_wire(sides, opener, socket, ahead, back):
    """What one end got is what the other has put, as far as it has flowed; an end finds the other's end once that is closed."""
    other = "b" if opener == "a" else "a"
    for writer, reader, flowed in ((opener, other, ahead), (other, opener, back)):
        put, end = sides[writer].ends.get(socket), sides[reader].ends.get(socket)
        written, got = bytes(put.text[: put.put]) if put else b"", bytes(end.source) if end else b""
        must(written.startswith(got), f"{socket}: {reader} has got other bytes than {writer} has put")
        moved = f"{writer} has put {len(written)} bytes, {flowed} flowed, and {reader} got {len(got)}"
        must(len(got) <= flowed <= len(written), f"{socket}: {moved}")
        must(end is None or end.got == len(got), f"{socket}: {reader} has got more than it has read")
        found = sides[reader].given.flags.get(socket, [False] * 4)[3]
        must(not found or (end.closed and put and put.closed and len(got) == len(written)), f"{socket}: {reader} found an end that isn't there")


def check(text):
    """Raises Wrong where the trace isn't what docs/PROTOCOL.md makes of its plan, its reads and its order."""
    if not text:
        return
    given, wires = read_trace(text)
    names = {flags: name for name, flags in POLICIES.items()}
    policies = [names.get(given[name].policy) for name in "ab"]
    must(tuple(policies) in PAIRS or tuple(policies[::-1]) in PAIRS, "no link has these two policies")
    sides = {name: Side(name, given[name], peer) for name, peer in ("ab", "ba")}
    for (name, side), policy in zip(sides.items(), policies):
        side.replay(policy, sides[side.peer])
    for side in sides.values():
        check_moments(side)
        must([name for opener, name, *_ in wires if opener == side.name] == side.opened, f"the sockets that {side.name} opened are others")
    for socket in wires:
        check_wire(sides, *socket)
    due = [f"{name} {line}" for name, side in sides.items() for line in side.lines()]
    due += [f"{opener} opened {name} {ahead} {back}" for opener, name, ahead, back in wires]
    compare(enumerate(lines_of(text), 1), due)


def read_file(file):
    """The text of a file; where it can't be read, one sentence and the status 2."""
    try:
        with open(file, encoding="utf-8", errors="replace", newline="\n") as trace:
            return trace.read()
    except OSError as fault:
        refuse(f"{file} can't be read: {fault.strerror}")


def refuse(said):
    print(f"{os.path.basename(sys.argv[0])}: {said}", file=sys.stderr)
    sys.exit(2)


def main():
    if len(sys.argv) != 2 or sys.argv[1].startswith("-"):
        refuse(f"one file is wanted; {__doc__.split(chr(10) * 2)[1]}")
    text = read_file(sys.argv[1])
    try:
        check(text)
    except NoTrace as wrong:
        refuse(f"{sys.argv[1]} is no trace: {wrong}")
    except Wrong as wrong:
        print(f"replay_trace.py: {wrong}", file=sys.stderr)
        sys.exit(1)


if __name__ == "__main__":
    main()
