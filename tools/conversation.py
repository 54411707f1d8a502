"""What the two ends of each connection of a capture said to each other, in order of time, and the sessions that it belongs to.

`Story(program, is_checked).events(connections, is_last)` gives what isn't told yet of connections as tools/packets.py puts them together,
as `Event`s. What a frame says is told by the program frame_facts. tools/capture prints it.
"""
import json
import re
import subprocess
import tempfile

import packets
import wire

BANNER, BANNER_OF_MSGR1, REVISION_1, SECURE, CLIENT, LOSSY = b"ceph v2\n", b"ceph v", 1, 2, 8, 1
MOST_SEARCHED = 1 << 20  # bytes in which the first frame is looked for, where a connection began before the capture
FAULTS = {  # of docs/FRAMES.md
    1: "the checksum of a preamble is wrong", 2: "a preamble has no segment, or more than four", 3: "the last segment is empty",
    4: "a frame is compressed", 5: "a tag that msgr2 doesn't have", 6: "a frame other than MESSAGE has several segments",
    7: "a segment is longer than any that is sent", 8: "the checksum of a segment is wrong", 9: "the late status is neither of the two",
    11: "more bytes than can be listed",
}
ASKS = ("CLIENT_IDENT", "SESSION_RECONNECT")
ANSWERS = ("SERVER_IDENT", "SESSION_RECONNECT_OK", "SESSION_RESET", "SESSION_RETRY", "SESSION_RETRY_GLOBAL", "WAIT", "IDENT_MISSING_FEATURES")
ROWS = {  # of the tables of docs/PROTOCOL.md: that by which an ask is answered so, where the answer tells it
    ("CLIENT_IDENT", "WAIT"): "mine_wins", ("SESSION_RECONNECT", "SESSION_RECONNECT_OK"): "goes_on",
    ("SESSION_RECONNECT", "SESSION_RETRY"): "old_connect", ("SESSION_RECONNECT", "SESSION_RETRY_GLOBAL"): "old_number",
    ("SESSION_RECONNECT", "WAIT"): "mine_wins",
}


class BadProgram(Exception):
    """The program frame_facts doesn't do its work."""


class Event:
    """Something that happened: when, on which connection, of which end; a frame with its place and what it says, or a note."""

    def __init__(self, time, connection, source, place=None, frame=None, note=None):
        self.time, self.connection, self.source, self.place, self.frame, self.note = time, connection, source, place, frame, note
        self.session, self.marks, self.unlike, self.row = None, [], [], None

    def words(self):
        """As one line."""
        connection = self.connection
        head = f"{self.time:.6f} {connection.number}"
        if self.frame is None:
            return f"{head} {self.note}"
        way = ">" if self.source == connection.opener else "<"
        facts = [f"{key}={word(value)}" for key, value in self.frame.items() if key not in ("at", "tag")]
        told = [f"session {self.session.number}"] if self.session else []
        told += self.marks + self.unlike
        return " ".join([head, way, str(self.place), self.frame["tag"], *facts]) + (f" ({', '.join(told)})" if told else "")

    def value(self):
        """As an object."""
        connection = self.connection
        found = {"time": round(self.time, 6), "connection": connection.number}
        if self.frame is None:
            return found | {"note": self.note}
        target = connection.acceptor if self.source == connection.opener else connection.opener
        facts = {key: value for key, value in self.frame.items() if key != "at"}
        found |= {"from": self.source, "to": target, "place": self.place} | facts
        found |= {"session": self.session.number} if self.session else {}
        return found | ({"marks": self.marks} if self.marks else {}) | ({"unlike": self.unlike} if self.unlike else {})


def word(value):
    if isinstance(value, list):
        return f"[{','.join(map(str, value))}]"
    return str(value).lower() if isinstance(value, bool) else str(value)


# ---- frames


def facts_of(program, data):
    """What each whole frame of these bytes says, and at which of them and with which fault of docs/FRAMES.md no frame stands; None
    where they are frames to their end."""
    try:
        with tempfile.NamedTemporaryFile() as file:
            file.write(data)
            file.flush()
            ran = subprocess.run([program, "--json", file.name], capture_output=True)
    except OSError as fault:
        raise BadProgram(f"{fault.filename or 'a temporary file'}: {fault.strerror}") from None
    if ran.returncode not in (0, 10):
        said = ran.stderr.decode(errors="replace").strip().partition("\n")[0]
        raise BadProgram(f"{program} ends with status {ran.returncode}{': ' if said else ''}{said}")
    try:
        frames = [json.loads(line) for line in ran.stdout.splitlines()]
    except ValueError:
        raise BadProgram(f"{program} isn't the program frame_facts: what it prints are no objects of JSON") from None
    bad = re.fullmatch(rb"bad frames: place ([0-9]+) fault ([0-9]+)\n", ran.stderr)
    return frames, (int(bad[1]), int(bad[2])) if bad else None


def first_frame(data):
    """Where in the bytes of a connection that had begun before the capture the first frame begins; None where there is none."""
    for at in range(min(len(data) - wire.PREAMBLE, MOST_SEARCHED) + 1):
        if 1 <= data[at] <= 22 and 1 <= data[at + 1] <= 4:
            try:
                wire.length_of(bytes(data[at : at + wire.PREAMBLE]))
                return at
            except wire.BadStream:
                pass
    return None


class Teller:
    """Tells one direction of a connection, as far as it has come."""

    def __init__(self, program, connection, direction):
        self.program, self.connection, self.direction = program, connection, direction
        self.piece, self.told = 0, 0  # the piece that is told, and how many of its bytes are
        self.over = None  # why nothing of the direction is told any more
        self.is_secure = False

    def note(self, time, said):
        return Event(time, self.connection, self.direction.source, note=f"{self.direction.source} {said}")

    def advance(self, is_last):
        """The events that aren't told yet."""
        pieces = self.direction.pieces
        while self.piece < len(pieces) and not self.over:
            piece, is_open = pieces[self.piece], self.piece == len(pieces) - 1 and not is_last
            if self.told == 0:
                if is_open and len(piece.data) < len(BANNER):
                    return
                yield from self.begin(piece)
            if not self.over and self.told < len(piece.data):
                yield from self.frames(piece, is_open)
            if is_open:
                return
            self.piece, self.told = self.piece + 1, 0

    def begin(self, piece):
        """What stands at the front of a piece."""
        time, data = piece.times[0], piece.data
        if piece.start > 0:
            before = self.direction.pieces[self.piece - 1] if self.piece else None
            at = before.start + len(before.data) if before else 0
            yield self.note(time, f"has sent {piece.start - at} bytes from place {at} that the capture lacks")
        elif data.startswith(BANNER):
            return
        elif data.startswith(BANNER_OF_MSGR1):
            self.over = "msgr1"
            yield self.note(time, "speaks msgr1, which isn't told")
            return
        elif self.direction.opened:
            self.over = "other"
            yield self.note(time, "sends no banner: this isn't a connection of Ceph")
            return
        found = first_frame(data)
        if found is None:
            self.over = "unknown"
            yield self.note(time, f"has sent {len(data)} bytes in which no frame begins: secure mode, or not Ceph's")
        elif found or piece.start == 0:
            yield self.note(time, f"is told from place {piece.start + found} on, where a frame begins")
        self.told = found or 0

    def frames(self, piece, is_open):
        """The frames that stand there whole."""
        frames, bad = facts_of(self.program, bytes(piece.data[self.told :]))
        ends = [frame["at"] for frame in frames[1:]] + [bad[0] if bad else len(piece.data) - self.told]
        for frame, end in zip(frames, ends):
            place = self.told + frame["at"]
            yield Event(piece.time_of(self.told + end), self.connection, self.direction.source, piece.start + place, frame)
            self.look(frame)
        self.told += ends[-1] if ends else bad[0] if bad else 0
        if bad and not (is_open and bad[1] == 10):
            yield self.note(piece.times[-1], self.why(piece, bad[1]))

    def look(self, frame):
        """Whether all behind it is something else than crc mode."""
        if frame["tag"] == "AUTH_DONE" and frame.get("mode") == SECURE:
            self.is_secure = True
        if frame["tag"] == "BANNER" and not int(frame["supported"], 16) & REVISION_1:
            self.over = "msgr2.0"

    def why(self, piece, fault):
        """Why no frame is told behind the last one."""
        left = len(piece.data) - self.told
        if fault == 10:
            return f"has sent {left} bytes of a frame that isn't whole"
        if self.over == "msgr2.0":
            return f"speaks msgr2.0, whose frames have another form: {left} bytes aren't told"
        self.over = "fault"
        if fault == 1 and self.is_secure:
            return f"is in secure mode: {left} bytes are cipher text"
        return f"has sent {left} bytes that aren't told, from place {piece.start + self.told} on: {FAULTS[fault]}"


# ---- sessions


class Session:
    """A session, as far as its cookies tell: its connections, and of each end what it has sent."""

    def __init__(self, number, cookies):
        self.number, self.cookies, self.connections = number, cookies, []
        self.sent, self.acknowledged, self.counts = {}, {}, {}

    def count(self, what):
        self.counts[what] = self.counts.get(what, 0) + 1


class Sides:
    """What each node keeps of its session with each other one, as far as the capture tells: nothing; where it has asked for a session
    and none is made yet, its client cookie; both cookies; or of a lossy session the connection. By it the rows of docs/PROTOCOL.md are
    told by which an ident, or a reconnect that is answered by a reset, was judged."""

    def __init__(self):
        self.kept, self.at, self.connections = {}, {}, []  # by a node and its peer; the node that was last seen at an address

    def name(self, address):
        """A node by its address; where another one was there before, that is over."""
        self.at[place_of(address)] = address
        return address

    def pass_ask(self, event, ask):
        """Passes an ask, and keeps when it was written and by whom."""
        ask["asked at"] = event.time
        if ask["tag"] == "CLIENT_IDENT" and ask["addrs"] and not int(ask["flags"], 16) & LOSSY:
            self.kept[self.name(ask["addrs"][0]), self.name(ask["target"])] = (ask["cookie"],)

    def accepted(self, event, ask, answer):
        """Passes a SERVER_IDENT, and gives the row of the ident that it answers; None where that isn't told."""
        if not ask["addrs"] or not answer["addrs"]:
            return None
        one, other = self.name(answer["addrs"][0]), self.name(ask["addrs"][0])
        had, cookies = self.kept.get((one, other)), (ask["cookie"], answer["cookie"])
        if int(ask["flags"], 16) & LOSSY:
            self.kept[one, other] = event.connection
            return "lossy" if isinstance(had, packets.Connection) and is_open_at(had.ends[had.acceptor], ask["asked at"]) else "no_session"
        self.kept[one, other] = self.kept[other, one] = cookies
        if not isinstance(had, tuple):
            return None if self.may_have_opened(event, one, other) else "no_session"
        return "peer_wins" if len(had) == 1 else "same_client" if had[0] == ask["cookie"] else "another_client"

    def may_have_opened(self, event, one, other):
        """The one node may have begun a session with the other one of which no ask is seen."""
        ip = place_of(one).rpartition(":")[0]
        return any(it.acceptor == place_of(other) and it.opener.rpartition(":")[0] == ip and it.time <= event.time for it in self.connections)

    def resumed(self, event, ask):
        one, other = self.ends(event, ask)
        self.kept[one, other] = self.kept[other, one] = (ask["client_cookie"], ask["server_cookie"])

    def reset(self, event, ask):
        """Passes a SESSION_RESET, and gives the row of the reconnect that it answers; None where that isn't told."""
        one, other = self.ends(event, ask)
        had, asked = self.kept.get((one, other)), (ask["client_cookie"], ask["server_cookie"])
        if not isinstance(had, tuple) or had == asked:  # what it has answered before by these cookies it has no more
            self.kept[one, other] = None
            return None if self.may_have_opened(event, one, other) else "no_session"
        return "another_client" if had[0] != asked[0] else "another_server" if len(had) == 2 else "never_established"

    def ends(self, event, ask):
        """The node that answers, and the one that has asked."""
        connection = event.connection
        return self.at.get(connection.acceptor, connection.acceptor), self.name(ask["addrs"][0]) if ask["addrs"] else connection.opener


def place_of(address):
    """The IP and port of an address that the facts of a frame have."""
    return address.split(":", 1)[-1].rpartition("/")[0]


def is_open_at(direction, time):
    """That end hadn't closed by then."""
    return all(it is None or it >= time for it in (direction.fin, direction.rst))


class Sessions:
    """Which session each connection carries, and what of its messages and acknowledgements isn't in order."""

    def __init__(self):
        self.all, self.by_cookies, self.of, self.asked, self.nodes, self.last, self.sides = [], {}, {}, {}, {}, {}, Sides()

    def pass_frame(self, event):
        """Gives the event its session and its marks."""
        tag, frame, connection = event.frame["tag"], event.frame, event.connection
        if "fault" in frame:
            return
        if tag in ASKS:
            frame = self.asked[connection] = dict(frame)
            self.sides.pass_ask(event, frame)
            self.nodes[connection, event.source] = (frame["addrs"] or ["?"])[0]
            if tag == "SESSION_RECONNECT":
                event.marks.append(f"wants to go on, has accepted up to {frame['seen']}")
                event.session = self.by_cookies.get(self.key(frame["client_cookie"], frame["server_cookie"]))
        elif tag in ANSWERS and connection in self.asked:
            self.answered(event, tag, frame, self.asked[connection])
        else:
            event.session = self.of.get(connection)
            if event.session:
                self.in_session(event, tag, frame)

    def key(self, one, other):
        return frozenset((one, other))

    def answered(self, event, tag, frame, ask):
        connection, source = event.connection, event.source
        row = self.row(event, tag, frame, ask)
        event.row = row
        event.marks += [f"row {row}"] if row else []
        if tag == "SERVER_IDENT":
            self.nodes[connection, source] = (frame["addrs"] or ["?"])[0]
            cookies = self.key(ask.get("cookie", ask.get("client_cookie")), frame["cookie"])
            session = self.by_cookies.get(cookies) if int(frame["cookie"], 16) else None
            self.carry(event, session or self.begin(cookies), "a new session" if not session else "the same session once more")
        elif tag == "SESSION_RECONNECT_OK" and "client_cookie" in ask:
            cookies = self.key(ask["client_cookie"], ask["server_cookie"])
            known = self.by_cookies.get(cookies)
            self.carry(event, known or self.begin(cookies), f"it goes on, has accepted up to {frame['seen']}")
            event.session.count("resumed")
            target = connection.acceptor if source == connection.opener else connection.opener
            self.last[connection, target], self.last[connection, source] = frame["seen"], ask["seen"]
        else:
            event.session = self.by_cookies.get(self.key(ask.get("client_cookie"), ask.get("server_cookie")))
            if event.session:
                event.session.count({"SESSION_RESET": "reset", "WAIT": "told to wait"}.get(tag, "told to try again"))
            if tag == "SESSION_RESET":
                event.marks.append("what is thrown away: all" if frame["full"] else "what is thrown away: the numbers")

    def row(self, event, tag, frame, ask):
        """The row of docs/PROTOCOL.md by which an ask is answered so; None where nothing tells it."""
        if tag == "SERVER_IDENT" and ask["tag"] == "CLIENT_IDENT":
            return self.sides.accepted(event, ask, frame)
        if tag == "SESSION_RESET" and ask["tag"] == "SESSION_RECONNECT":
            return self.sides.reset(event, ask)
        if tag == "SESSION_RECONNECT_OK" and ask["tag"] == "SESSION_RECONNECT":
            self.sides.resumed(event, ask)
        return ROWS.get((ask["tag"], tag))

    def begin(self, cookies):
        session = Session(len(self.all), cookies)
        self.all.append(session)
        self.by_cookies[cookies] = session
        return session

    def carry(self, event, session, said):
        event.session, self.of[event.connection] = session, session
        session.connections.append(event.connection)
        event.marks.append(said)

    def in_session(self, event, tag, frame):
        session, node = event.session, self.nodes.get((event.connection, event.source), event.source)
        seen = frame.get("ack") if tag == "MESSAGE" else frame.get("seen") if tag == "ACK" else None
        if tag == "MESSAGE" and "seq" in frame:
            most, last = session.sent.get(node, 0), self.last.get((event.connection, event.source))
            if frame["seq"] <= most:
                event.marks.append("written again")
                session.count("written again")
            if last is not None and frame["seq"] > last + 1:
                event.marks.append(f"{frame['seq'] - last - 1} numbers before it are missing")
            session.sent[node] = max(most, frame["seq"])
            self.last[event.connection, event.source] = frame["seq"]
            session.count("messages")
        if seen is not None:
            before = session.acknowledged.get(node, 0)
            if seen < before:
                event.marks.append(f"acknowledges {seen}, and {before} before")
            session.acknowledged[node] = max(before, seen)


# ---- what this project's own ends wouldn't write


def unlike(frame, is_of_client, ask=None):
    """In what a frame is otherwise than docs/PROTOCOL.md has an end write it; on a connection of a client, or of two daemons, behind the
    ask that was written there last."""
    tag = frame["tag"]
    if frame.get("fault") == "address-no-msgr2":
        yield "no address of msgr2 over IPv4, as where an opener's is of kind 3; the profile refuses it"
    elif "fault" in frame:
        yield f"its payload can't be read: {frame['fault']}"
    if tag == "AUTH_REQUEST" and frame.get("payload", "-") not in ("-", ""):
        yield "a payload in AUTH_REQUEST; the profile writes none"
    if tag == "AUTH_DONE" and frame.get("mode") == SECURE:
        yield "secure mode; the profile has crc mode alone"
    if tag in ("CLIENT_IDENT", "SERVER_IDENT", "SESSION_RECONNECT"):
        kinds = [address.split(":")[0] for address in frame.get("addrs", [])]
        if kinds != ["v2"]:
            yield f"addresses of kind {', '.join(kinds) or 'none'}; the profile has one of kind v2"
    if tag == "CLIENT_IDENT" and frame.get("target", "v2").split(":")[0] != "v2":
        yield f"a target of kind {frame['target'].split(':')[0]}"
    if tag == "SERVER_IDENT" and ask and "flags" in ask and (int(ask["flags"], 16) ^ int(frame.get("flags", ask["flags"]), 16)) & LOSSY:
        ends = ("opener", "acceptor") if int(ask["flags"], 16) & LOSSY else ("acceptor", "opener")
        yield f"a lossy flag of the {ends[0]} and none of the {ends[1]}; the profile takes no session whose two ends disagree"
    if tag == "SESSION_RESET" and frame.get("full") and not is_of_client:
        yield "a full reset between two daemons; the profile resets a lossless peer's session in part"
    if tag == "MESSAGE" and not 64 <= frame.get("priority", 64) <= 255:
        yield f"a message of priority {frame['priority']}; the profile has 64 to 255"
    if tag in ("KEEPALIVE2", "KEEPALIVE2_ACK"):
        yield f"{tag}, which the profile reads and never writes"
    if tag in ("COMPRESSION_REQUEST", "COMPRESSION_DONE", "AUTH_REPLY_MORE", "AUTH_REQUEST_MORE"):
        yield f"{tag}, which the profile doesn't have"


# ---- the whole


class Story:
    """The events of a capture in order of time."""

    def __init__(self, program, is_checked=False):
        self.program, self.is_checked, self.tellers, self.sessions = program, is_checked, {}, Sessions()
        self.opened, self.closed, self.counts, self.clients = set(), set(), {}, set()

    def events(self, connections, is_last):
        found, self.sessions.sides.connections = [], connections
        for connection in connections:
            if connection not in self.opened:
                self.opened.add(connection)
                is_seen = connection.ends[connection.opener].opened
                said = "opens a connection to" if is_seen else "has a connection, from before the capture, to"
                found.append(Event(connection.time, connection, connection.opener, note=f"{connection.opener} {said} {connection.acceptor}"))
            found += self.told(connection, is_last)
        found.sort(key=lambda event: event.time)  # those of one time stay as they are: frames before the end behind them
        for event in found:
            if event.frame:
                self.sessions.pass_frame(event)
                if event.frame.get("entity") == CLIENT:
                    self.clients.add(event.connection)
                if self.is_checked:
                    event.unlike = list(unlike(event.frame, event.connection in self.clients, self.sessions.asked.get(event.connection)))
                key = event.connection, event.source
                self.counts[key] = self.counts.get(key, 0) + 1
        return found

    def told(self, connection, is_last):
        """What isn't told yet of either end, the opener first. The acceptor is read first: its AUTH_DONE tells the mode of both."""
        ends = [connection.ends[it] for it in (connection.opener, connection.acceptor)]
        opener, acceptor = (self.tellers.setdefault(it, Teller(self.program, connection, it)) for it in ends)
        back = list(acceptor.advance(is_last))
        opener.is_secure = opener.is_secure or acceptor.is_secure
        there = list(opener.advance(is_last))
        acceptor.is_secure = acceptor.is_secure or opener.is_secure
        return [*there, *self.ended(opener), *back, *self.ended(acceptor)]

    def ended(self, teller):
        """That an end has closed or broken the connection, where that isn't told yet."""
        direction = teller.direction
        for time, said in ((direction.rst, "breaks the connection"), (direction.fin, "closes")):
            if time is not None and (direction, said) not in self.closed:
                self.closed.add((direction, said))
                yield teller.note(time, said)

    def summary(self, connections):
        """The connections, and then the sessions that they carry, as objects."""
        for connection in connections:
            ends = [connection.ends[it] for it in (connection.opener, connection.acceptor)]
            session = self.sessions.of.get(connection)
            over = sorted({self.tellers[it].over for it in ends} - {None})
            yield {
                "connection": connection.number, "opener": connection.opener, "acceptor": connection.acceptor,
                "frames": [self.counts.get((connection, it.source), 0) for it in ends], "bytes": [it.next for it in ends],
            } | ({"session": session.number} if session else {}) | ({"over": over} if over else {})
        for session in self.sessions.all:
            if not set(connections).isdisjoint(session.connections):
                numbers = [it.number for it in session.connections]
                yield {"session": session.number, "cookies": sorted(session.cookies), "connections": numbers, "counts": session.counts}


def summary_words(value):
    """An object of the summary as one line."""
    if "opener" in value:
        session = f"session {value['session']}" if "session" in value else "no session"
        (there, back), (bytes_there, bytes_back) = value["frames"], value["bytes"]
        return ", ".join([f"connection {value['connection']}: {value['opener']} opened it to {value['acceptor']}", f"{there} frames in {bytes_there} bytes there",
                          f"{back} in {bytes_back} back", session, *value.get("over", [])])
    numbers = ", ".join(map(str, value["connections"]))
    counted = [f"{count} {what}" for what, count in value["counts"].items()]
    return ", ".join([f"session {value['session']}: cookies {' '.join(value['cookies'])}", f"connections {numbers}", *counted])
