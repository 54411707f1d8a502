"""What became of each post of a run, of each socket, and of each line of its script: from the trace alone.

`Fates(run)` goes through a `Run` of tools/run_trace.py once more, event by event, with what each side of each link has
waiting, has numbered and has accepted by then (docs/PROTOCOL.md, "Priorities and paths", "Steps"). tools/why tells it, and
tools/draw draws by it.
"""
import collections

from run_trace import TAKES, BadTrace
from sides import POLICIES
from wire import MESSAGE, MISSING_FEATURES, NAMES, RECONNECT_OK, RETRY, RETRY_GLOBAL, SERVER_IDENT

REPEATS = 3  # how often an exchange comes at the end before it is said to repeat
MOST_PERIOD = 24  # what the longest of them has of opened, judged and closed
ASKED = {  # what came of the socket of an ask, by the answer
    "ident": {
        "accept": "began a session", "accept_over": "began a session in place of a lossy one", "accept_reset": "began a session as another client",
        "accept_again": "began the session once more, as its first answer was lost",
        "accept_replace": "began a session in place of one that only {judge} had",
        "accept_race": "began a session, ahead of {judge}'s own connect", "close": "closed, as the ask was an old one",
        "wait": "told to wait, as the connect of {judge} goes first",
    },
    "reconnect": {
        "resume": "went on with the session", "reset": "told that there is no such session at {judge}",
        "reset_pending": "told that {judge} never saw that session begin", "retry_global": "told to ask again, with a greater global number",
        "retry": "told to ask again, with a greater connect number", "close": "closed, as it has seen what was never written",
        "wait": "told to wait, as the connect of {judge} goes first",
    },
}
DISPATCHED, WAITS, THROWN, LOST = "dispatched", "waits", "thrown away", "lost"
NEW, OLD, HELD, LEFT = "new", "old", "held", "left"  # of a MESSAGE that was read whole: accepted, passed over, not yet, never
PENDING = "given up"  # begins the cause of an end that was closed by reset_pending


def bits_of(features):
    """The features of a mask, by the numbers of their bits from 0."""
    bits = [str(bit) for bit in range(64) if features >> bit & 1]
    return f"{'bit' if len(bits) == 1 else 'bits'} {', '.join(bits)} ({features})"


class Post:
    """A post: its line, and what happened to it."""

    def __init__(self, row):
        self.row = row
        _, self.sender, self.receiver, kind, priority, *parts = row.words
        self.kind, self.priority, self.parts = kind, priority, [part.lower() for part in parts]
        self.size = sum(len(part.strip("-")) // 2 for part in parts)
        self.tries = []  # each time that it got a number: the number and the socket
        self.accepted, self.dispatched = [], []  # the events of its receiver
        self.held = []  # the flights of it that had to wait for the throttle, each with the rows from which and up to which
        self.gone = None  # the row in which it was thrown away, and why
        self.acked = None

    def ends(self, flight, row):
        """Its wait for the throttle on a socket is over; it was none where it didn't last longer than a turn."""
        for wait in self.held:
            if wait[0] is flight:
                wait[2] = row
        self.held = [wait for wait in self.held if wait[2] is not wait[1]]


class Side:
    """A node's side of a link, as far as a trace tells of it."""

    def __init__(self, node, peer, policy):
        self.node, self.peer = node, peer
        self.lossy, self.server, self.standby, _ = POLICIES[policy]
        self.waiting, self.kept, self.next, self.last = [], [], 0, 0  # the queue of docs/PROTOCOL.md; the last accepted number
        self.phase, self.feed = "absent", None  # of the session
        self.posts, self.accepted, self.purged = [], [], []  # its posts; those of the peer that aren't dispatched, or never will be
        self.missing, self.wants_dial = None, False  # which features the peer has said to miss, last of all; told to dial
        self.before = None  # its last event
        self.downs = []  # the rows in which it was marked down
        self.until = 0  # the moment before which no connect is due

    def take_next(self, number):
        """The post that gets a number, if there is one; those that have one and are to be written again go first."""
        if self.next == len(self.kept):
            if not self.waiting:
                return None
            post = max(self.waiting, key=lambda it: int(it.priority))  # the first of the greatest
            self.waiting.remove(post)
            self.kept.append([post, number])
        self.kept[self.next][1] = number
        post = self.kept[self.next][0]
        self.next += 1
        if self.lossy:
            self.kept, self.next = [], 0
        return post

    def acknowledge(self, number):
        gone = [post for post, its in self.kept if its <= number]
        self.kept = self.kept[len(gone) :]
        self.next = max(0, self.next - len(gone))
        return gone

    def discard(self):
        """What it has to write, and what it has of the peer and hasn't dispatched."""
        thrown = [post for post, _ in self.kept] + self.waiting
        self.kept, self.waiting, self.next = [], [], 0
        return thrown


class Fates:
    """What is told of a run; `lines` are the numbers of its rows' lines, where they aren't those of the trace."""

    def __init__(self, run, lines=None):
        self.run, self.lines = run, lines or {row: row.line for row in run.rows}
        self.word = "place" if run.on_threads else "moment"  # what the turns count
        self.posts = []
        self.messages = {}  # of a MESSAGE that was read whole what came of it
        self.late = {}  # of the acceptance of one that had to wait, in an earlier turn than its own, the frame
        self.ready = {}  # of a socket and a node the event since which it is the socket of a session there
        self.causes, self.due = {}, {}  # of an event why an end was closed, and why a socket was opened
        self.outs = {}  # of a turn how many bytes were out of its node's throttle, before it gave back what was dispatched behind the queue
        self.sides = {pair: Side(*pair, policy) for pair, policy in run.policies.items()}
        self.numbered = {}  # of a socket's name, a sender and a number the post
        self.lasts = {}  # of a socket's name and a sender the last number
        self.read = collections.defaultdict(list)  # of an event the frames that it ended
        self.idle = []  # the lines that did nothing, with why
        self.bounds = {node: bound_of(words) for node, words in run.nodes.items()}
        for socket in run.sockets.values():
            for flight in socket.flights:
                self.read[flight.read].append(flight)
        self.go_through()
        self.end_cuts()

    def go_through(self):
        moment, outs = 0, collections.Counter()
        for row in self.run.rows:
            row.at = moment
            moment += row.what == "turn"
            self.begin(row)
            for event in row.events:
                side = self.sides[event.node, event.peer]
                handle = getattr(self, f"on_{event.what}", None)
                if handle:
                    handle(event, side)
                if event.what not in ("from", "reset", "fault", "cut", "took"):
                    side.before = event
            for pair, words in row.sessions.items():
                self.sides[pair].until = None if self.run.on_threads else int(words[6])
            outs[row.node] = outs[row.node] if row.out is None else row.out
            self.outs[row] = outs[row.node] + sum(self.size_of(event) for event in row.events if is_queued(event))

    def size_of(self, accepted):
        """How many bytes the message has that was accepted."""
        return self.numbered[accepted.socket.name, accepted.peer, int(accepted.words[0])].size

    # ---- lines

    def begin(self, row):
        """What a line will do is judged by how all stands before it."""
        if row.what == "fault" and not row.events:
            self.idle.append((row, self.no_fault(*row.words[1:])))
        elif row.what == "dial":
            side = self.sides[tuple(row.words[1:3])]
            if side.server:
                self.idle.append((row, f"{side.node} is a server and never connects"))
            elif side.phase not in ("absent", "standby"):
                self.idle.append((row, f"{side.node} has a session with {side.peer} or is about to connect"))
        elif row.what == "down":
            side = self.sides[tuple(row.words[1:3])]
            if side.phase == "absent" and not side.waiting:
                self.idle.append((row, f"{side.node} has no session with {side.peer}, and nothing waits"))
        elif row.what == "flow" and len(row.words) > 3 and int(row.words[3]) > len(self.opened(*row.words[1:3])):
            self.idle.append((row, f"there is no socket {row.words[3]} of {row.words[1]} and {row.words[2]} yet"))

    def opened(self, a, b):
        return [socket for socket in self.run.between(a, b) if hasattr(socket.ends[socket.opener].opened.row, "at")]

    def no_fault(self, a, b, number=None):
        sockets = self.opened(a, b)
        if not sockets or int(number or 1) > len(sockets):
            return f"there is no socket {number} of {a} and {b} yet" if number else f"{a} and {b} have no socket yet"
        socket = sockets[int(number) - 1 if number else -1]
        return f"{a}'s end of {socket.name} {'is closed' if socket.ends[a].closed else 'has failed'} already"

    def end_cuts(self):
        """The k-th cut of two nodes is for the k-th socket that the first opens to the second."""
        places = collections.Counter()
        for row in self.run.rows:
            if row.what != "cut":
                continue
            a, b, count = row.words[1:]
            sockets = [socket for socket in self.run.between(a, b) if socket.opener == a]
            place = places[a, b]
            places[a, b] += 1
            if place >= len(sockets):
                self.idle.append((row, f"{a} opened {some(len(sockets), 'socket')} to {b}, and this is for number {place + 1}"))
            elif not sockets[place].ends[a].cut:
                passed = int(count) - sockets[place].ends[a].left
                self.idle.append((row, f"{passed} bytes passed at {a}'s end of {sockets[place].name}"))

    # ---- what a side does

    def on_post(self, event, side):
        post = Post(event.row)
        self.posts.append(post)
        side.posts.append(post)
        side.waiting.append(post)

    def on_dial(self, event, side):
        side.wants_dial = side.wants_dial or side.phase in ("absent", "standby")

    def on_opened(self, event, side):
        self.due[event] = self.due_connect(event.words[1], side)
        side.feed, side.phase, side.next, side.wants_dial = event.socket, "connecting", 0, False

    def due_connect(self, word, side):
        """What made a connect due, as its line has it ("When a side connects")."""
        waited = "as its wait was over" if self.run.on_threads else f"as its wait until moment {side.until} was over"
        return {"waited": waited, "posted": "for what it has to write", "dialled": "as it was told to dial"}[word]

    def on_asked(self, event, side):
        side.phase = "asked"

    def on_numbered(self, event, side):
        number = int(event.words[0])
        post = side.take_next(number)
        if post is None or side.feed is None:
            raise BadTrace(event.line, f"message {number} wasn't posted, or has no socket")
        post.tries.append((number, side.feed))
        self.lasts[side.feed.name, side.node] = number
        self.numbered[side.feed.name, side.node, number] = post

    def on_read(self, event, side):
        for flight in self.read[event]:
            if flight.tag == MESSAGE:
                self.read_message(event, side, flight)
            elif event.socket is side.feed and event.node == event.socket.opener and side.phase == "asked":
                self.read_answer(event, side, flight)

    def read_answer(self, event, side, flight):
        if flight.tag in (SERVER_IDENT, RECONNECT_OK):
            side.phase, side.missing = "ready", None
            self.ready[event.socket, event.node] = event
        if flight.tag == SERVER_IDENT:
            side.last = 0
        elif flight.tag in (RETRY, RETRY_GLOBAL):
            side.phase = "connecting"
        elif flight.tag == MISSING_FEATURES:
            side.missing = flight.says["bits"]

    def read_message(self, event, side, flight):
        self.messages[flight] = OLD if flight.says["seq"] <= side.last or flight.frame.aborted else HELD
        post = self.numbered.get((event.socket.name, flight.writer, flight.says["seq"]))
        if post and self.messages[flight] == HELD and not self.run.on_threads:
            post.held.append([flight, event.row, None])

    def on_accepted(self, event, side):
        number = int(event.words[0])
        side.last = number
        flight = next(it for it in event.socket.flights if it.writer == event.peer and it.says.get("seq") == number)
        post = self.numbered.get((event.socket.name, event.peer, number))
        if post is None:
            raise BadTrace(event.line, f"message {number} got no number on {event.socket.name}")
        self.messages[flight] = NEW
        if flight.read.row is not event.row:
            self.late[event] = flight
        post.accepted.append(event)
        post.ends(flight, event.row)
        side.accepted.append((post, event.words[1:]))

    def on_from(self, event, side):
        priority, path, *message = event.words
        for letters in (side.accepted, side.purged):
            for letter in letters:
                post, key = letter
                if key == [priority, path] and [post.kind, *post.parts] == message:
                    letters.remove(letter)
                    post.dispatched.append(event)
                    post.gone = None
                    return

    def on_acked(self, event, side):
        for post in side.acknowledge(int(event.words[0])):
            post.acked = event.row

    def on_judged(self, event, side):
        answer = event.words[8]
        if answer == "reset_pending":
            side.phase = "standby" if side.phase == "standby" else "wait"
        if answer not in TAKES:
            return
        if event.words[8:10] == ["accept_reset", "full"]:
            self.throw(side, event.row, f"{side.peer} came back as another client{self.why_down(side.peer, side.node)}")
        side.phase, side.next, side.missing, side.wants_dial, side.feed = "ready", 0, None, False, event.socket
        self.ready[event.socket, event.node] = event
        if answer != "resume":
            side.last = 0

    def on_obeyed(self, event, side):
        side.phase, side.last = "connecting", 0
        if event.words[0] == "full":
            why = f"{side.peer} had no session with {side.node} any more, and reset it in full"
            self.throw(side, event.row, why + self.why_down(side.peer, side.node))

    def on_down(self, event, side):
        side.downs.append(event.row)
        side.phase, side.last, side.wants_dial = "absent", 0, False
        self.throw(side, event.row, f"{side.node} marked the session down")

    def why_down(self, node, peer):
        downs = self.sides[node, peer].downs
        return f" ({node} had marked it down, {self.when(downs[-1])})" if downs else ""

    def throw(self, side, row, why):
        """Messages are thrown away: what the side has to write, and what it has accepted and not dispatched."""
        for post in side.discard():
            if not post.accepted:
                post.gone = row, why
        for letter in side.accepted:
            letter[0].gone = row, f"{why}; {side.node} had accepted it"
        side.purged += side.accepted
        side.accepted = []

    def on_closed(self, event, side):
        self.causes[event] = self.cause(event, side)
        for flight in event.socket.flights:
            if flight.writer != event.node and self.messages.get(flight) == HELD:
                self.messages[flight] = LEFT
                post = self.numbered.get((event.socket.name, flight.writer, flight.says["seq"]))
                if post:
                    post.ends(flight, event.row)
        if event.socket is not side.feed:
            return
        side.feed, side.next = None, 0
        if side.phase == "absent" or self.causes[event].startswith(PENDING):
            return
        if side.lossy:
            side.phase = "absent"
            self.throw(side, event.row, f"its socket {event.socket.name} broke, and the link is lossy")
        else:
            is_idle = side.server or side.standby and not side.kept and not side.waiting
            side.phase = "standby" if is_idle and self.causes[event] != "answered WAIT" else "wait"

    def cause(self, event, side):
        """Why an end was closed."""
        socket, node, said = event.socket, event.node, " ".join(event.words[1:])
        end = socket.ends[node]
        if said == "taken":
            if side.before is None or side.before.what != "judged":
                raise BadTrace(event.line, "no ask was judged for which this end gives way")
            return f"gave way to {side.before.socket.name}"
        if said == "pending":
            return f"{PENDING} at {node}, as {side.peer} asked to go on with a session,"
        if said == "failed":
            other = socket.other(node)
            return "fault" if end.failed else "cut" if end.cut else "the other end was closed" if other.closed else "failed"
        return {"ended": "the other end was closed", "waited": "answered WAIT", "refused": "refused", "down": "marked down"}.get(said, said)

    # ---- what is told

    def when(self, row):
        at = f"{self.word} {row.at}"
        return f"at {at}" if row.what == "turn" else f"at line {self.lines[row]}, before {at}"

    def fate(self, post):
        """What became of a post: the kind, and the rest of the sentence."""
        if post.dispatched:
            return DISPATCHED, self.dispatch(post)
        if post.gone:
            row, why = post.gone
            return THROWN, f"{self.when(row)}: {why}"
        side = self.sides[post.sender, post.receiver]
        closed = self.first_closed(post.tries[-1][1]) if post.tries else None
        if side.lossy and closed:
            return LOST, f"with {closed.socket.name}, on which it was written ({self.broke(closed)})"
        if post.accepted:
            return WAITS, f"in {post.receiver}'s queue, accepted {self.when(post.accepted[-1].row)}"
        return WAITS, self.waits(post, side)

    def dispatch(self, post):
        said = " and ".join(self.when(event.row) for event in post.dispatched)
        said += ", at once" if post.dispatched[0].words[1] == "fast" else ""
        return f"{said}, {self.held(post)}" if self.held(post) else said

    def held(self, post):
        """That it was read and had to wait, and how long."""
        spans = [f"from moment {start.at} to {end.at}" for _, start, end in post.held if end]
        return f"{self.held_for(post)} {' and '.join(spans)}" if spans else ""

    def held_for(self, post):
        bound = self.bounds[post.receiver]
        if not bound:
            return f"after a wait for {post.receiver}'s next turn"
        return f"after a wait for {post.receiver}'s throttle ({self.outs[post.held[0][1]]} of {bound} bytes out)"

    def is_written(self, post, number, socket):
        """Whether some of it was written on a socket where it got this number; a frame that is cut short is the last that got one there."""
        is_last = self.lasts[socket.name, post.sender] == number
        mine = [it for it in socket.flights if (it.writer, it.tag) == (post.sender, MESSAGE)]
        return any(it.says.get("seq") == number or it.frame is None and is_last for it in mine)

    def writings(self, post):
        """On how many sockets some of it was written."""
        return sum(self.is_written(post, number, socket) for number, socket in post.tries)

    def ends(self):
        """Why nothing more happens."""
        if self.run.on_threads:
            return "the run ended"
        last = [row.what for row in self.run.rows[-1 - len(self.run.nodes) :]]
        return "the last settle is too short" if last[:1] == ["settle"] else "no settle follows"

    def waits(self, post, side):
        """For what a post waits behind the last line."""
        number, socket = post.tries[-1] if post.tries else (0, None)
        if socket is None or socket is not side.feed or side.phase != "ready":
            return self.waits_for_session(side, self.sides[side.peer, side.node])
        flight = next((it for it in socket.flights if it.writer == side.node and it.says.get("seq") == number), None)
        if flight is None or not flight.written:
            return f"to be written to {socket.name}: {self.ends()}"
        if not flight.read:
            return f"on {socket.name}: {side.peer} has read {flight.got} of its {flight.put} bytes, and {self.ends()}"
        first = next(it for it in socket.flights if it.writer == side.node and self.messages.get(it) == HELD)
        if first is not flight:
            return f"behind message {first.says['seq']} on {socket.name}, which {side.peer} has read and not accepted"
        return self.waits_for_throttle(post, side.peer)

    def waits_for_throttle(self, post, reader):
        bound = self.bounds[reader]
        if self.run.on_threads:
            what = f", whose throttle has {bound} bytes" if bound else ""
            return f"for {reader}{what}: it was read and not accepted when the run ended"
        if not bound:
            return f"for {reader}'s next turn: {reader} has read it and did as much as it does in one turn"
        row = next(start for _, start, end in post.held[::-1] if end is None)
        out = f"of {bound} there were {self.outs[row]} out {self.when(row)}"
        return f"for {reader}'s throttle: it has {some(post.size, 'byte')}, and {out}; {self.ends()}"

    def waits_for_session(self, side, peer):
        again = self.repeated(side.node, side.peer)
        if again:
            return f"while {again}"
        for one in (side.node, side.peer):
            if one in self.run.off:
                return f"as {one} is off"
        for one, other in ((side, peer), (peer, side)):
            if one.missing:
                lacks = f"{other.node} requires {bits_of(one.missing)}, which {one.node} doesn't support"
                return f"for a feature: {lacks}, and refuses each ask of {one.node}, which dials again after each"
        for one in (side, peer):
            if one.feed and one.phase != "ready":
                return f"for the handshake on {one.feed.name}: {self.ends()}"
        if side.feed:
            return f"for {side.node}'s next turn: {self.ends()}"
        if not side.server:
            return f"for a socket, which {self.opens(side)}: {self.ends()}"
        if peer.phase == "wait" or peer.waiting or peer.kept or peer.wants_dial:
            return f"for a socket, which {self.opens(peer)}: {self.ends()}"
        return f"for a socket, which only {peer.node} opens: it has nothing to write, and isn't told to dial"

    def opens(self, side):
        """When a side opens a socket that it is to open: in its next turn, or where it waits in the first behind the wait."""
        if self.run.on_threads:
            return f"{side.node} opens {'behind its wait' if side.phase == 'wait' else 'in its next turn'}"
        return f"{side.node} opens in its {f'first turn from moment {side.until} on' if side.until > self.run.moment else 'next turn'}"

    # ---- an exchange that repeats

    def marks(self, a, b):
        """What was opened, judged and closed on a link, in order, each as words without its numbers."""
        for row in self.run.rows:
            for event in row.events:
                if {event.node, event.peer} == {a, b} and event.what in ("opened", "judged", "closed", "accepted", "from"):
                    words = event.words[2:3] + event.words[8:] if event.what == "judged" else event.words[1:] if event.what == "closed" else []
                    yield (event.node, event.what, *words), event

    def repeated(self, a, b):
        """That the link's end is one exchange again and again, with its rows; None where it isn't."""
        marks = list(self.marks(a, b))
        kinds = [kind for kind, _ in marks]
        for period in range(2, MOST_PERIOD + 1):
            last = kinds[-period:]
            if len(kinds) < REPEATS * period or any(kinds[-k * period : len(kinds) - (k - 1) * period] != last for k in range(1, REPEATS + 1)):
                continue
            if not any(kind[1] == "judged" for kind in last) or any(kind[1] in ("accepted", "from") for kind in last):
                return None
            count = 1
            while kinds[-(count + 1) * period : len(kinds) - count * period] == last:
                count += 1
            since = marks[-count * period][1].row.at
            judged = [event for kind, event in marks[-period:] if kind[1] == "judged"]
            answers = [f"{it.node} answers {it.words[2]} by {' '.join(it.words[8:])} ({it.named})" for it in judged]
            return f"one exchange repeats itself, {some(count, 'time')} since {self.word} {since}: {', '.join(answers)}"
        return None

    # ---- sockets

    def first_closed(self, socket):
        closed = [end.closed for end in socket.ends.values() if end.closed]
        return min(closed, key=lambda event: event.line) if closed else None

    def cause_at(self, closed):
        """Why an end was closed, and at which node."""
        end, cause = closed.socket.ends[closed.node], self.causes[closed]
        if cause == "cut":
            return f"cut at {closed.node} after {some(sum(int(event.words[1]) for event in end.writes.events + end.reads.events), 'byte')}"
        return {"fault": f"fault at {closed.node}", "marked down": f"marked down by {closed.node}"}.get(cause, cause)

    def broke(self, closed):
        return f"{self.cause_at(closed)} {self.when(closed.row)}"

    def asks(self, socket):
        """What came of a socket by what was asked on it, with the ask, its answer and the row of its table."""
        said = [f"{ASKED[event.words[2]][event.words[8]].format(judge=event.node)} ({event.words[2]}: {' '.join(event.words[8:])}, {event.named})"
                for event in socket.judged]
        refusals = [flight for flight in socket.flights if flight.tag == MISSING_FEATURES]
        return said + [f"refused for missing features (ident: IDENT_MISSING_FEATURES {flight.says['bits']})" for flight in refusals]

    def progress(self, socket):
        """How far a socket came on which nothing was answered."""
        if not socket.ends[socket.acceptor].opened:
            return "never accepted"
        read = [flight for flight in socket.flights if flight.read]
        last = max(read, key=lambda flight: flight.read.line, default=None)
        return f"no ask was judged, the last frame read was {NAMES[last.tag]} of {last.writer}" if last else "nothing was read"

    def story(self, socket):
        """What came of a socket."""
        closed = self.first_closed(socket)
        said = ", ".join(self.asks(socket)) or self.progress(socket)
        return f"{socket.name} {said}; {self.broke(closed) if closed else 'open'}"

    def beginning(self, socket):
        """When and why a socket was opened."""
        event = socket.ends[socket.opener].opened
        return f"{self.when(event.row)} by {socket.opener}, {self.due[event]}"

    def sockets(self, a, b, most):
        """What came of the sockets of a link; where they are more than so many, of those that carried a session, and how often what
        else."""
        sockets = self.run.between(a, b)
        if len(sockets) <= most:
            return " / ".join(self.story(socket) for socket in sockets) or "no socket"
        taken = [socket for socket in sockets if any(event.words[8] in TAKES for event in socket.judged)]
        others = collections.Counter(self.end_of(socket) for socket in sockets if socket not in taken)
        stories = [self.story(socket) for socket in taken]
        if len(taken) > most:
            stories = [f"{len(taken)} carried a session, the last {stories[-1]}"]
        return f"{len(sockets)} sockets: " + " / ".join(stories + [f"{count} {said}" for said, count in others.items()])

    def end_of(self, socket):
        """How a socket without a session ended, in words that are alike for like ones."""
        asks, closed = self.asks(socket), self.first_closed(socket)
        if asks:
            return asks[-1]
        if not closed:
            return "in the handshake"
        cause = self.causes[closed]
        return f"{cause} at {closed.node}" if cause in ("fault", "cut") else f"closed: {cause}"


def is_queued(event):
    """A message was accepted that is dispatched behind the queue."""
    return event.what == "accepted" and event.words[2] == "queued"


def bound_of(words):
    return int(dict(zip(words[2::2], words[3::2])).get("throttle", 0))


def some(count, word):
    return f"{count} {word}" + ("" if count == 1 else "s")
