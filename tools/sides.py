"""The parts of the model of a run (tools/model.py) below a node: ends of sockets, a node's side of a link, and a socket
that a peer opened. A name in double quotes is the heading of docs/PROTOCOL.md that has the rule.

Both tell each thing that they do to their node, as words: an entry of a journal or of a trail as it stands in a trace.
tools/replay_trace.py lays a side beside the journal of a record.
"""
import collections

import wire
from wire import ACK, AUTH_DONE, AUTH_REQUEST, AUTH_SIGNATURE, BANNER, CLIENT_IDENT, HELLO, MESSAGE, MISSING_FEATURES
from wire import RECONNECT, RECONNECT_OK, RESET, RETRY, RETRY_GLOBAL, SERVER_IDENT, WAIT

MOST_MOVES = 4096  # of a half in a turn, and as many replies ("A center's turn")
MOST_READ = 65536  # bytes that a read asks for

# "Policies": lossy, server, standby, resetcheck
POLICIES = {
    "lossy_client": (True, False, False, False),
    "lossless_client": (False, False, False, True),
    "lossless_peer": (False, False, True, False),
    "stateless_server": (True, True, False, False),
    "stateful_server": (False, True, True, True),
}
PAIRS = (  # that a link may have, either way round
    ("lossless_peer", "lossless_peer"), ("lossless_client", "stateful_server"), ("lossy_client", "stateless_server"),
)

# "The steps" of the handshake: what is read, and what is written then
OPENER = (
    (None, (BANNER,)),
    (BANNER, (HELLO,)),
    (HELLO, (AUTH_REQUEST,)),
    (AUTH_DONE, (AUTH_SIGNATURE,)),
    (AUTH_SIGNATURE, ()),
)
ACCEPTOR = (
    (None, (BANNER,)),
    (BANNER, (HELLO,)),
    (HELLO, ()),
    (AUTH_REQUEST, (AUTH_DONE, AUTH_SIGNATURE)),
    (AUTH_SIGNATURE, ()),
)

# "Sessions": the phases
ABSENT, CONNECTING, IDENT_SENT, RECONNECT_SENT = "absent", "connecting", "ident_sent", "reconnect_sent"
READY, STANDBY, WAITING = "ready", "standby", "wait"

# "An ident is judged", "A reconnect is judged": the rows of each table, in their order
ROWS = {
    "ident": ("no_session", "old_number", "lossy", "another_client", "same_client", "settled", "peer_wins", "mine_wins"),
    "reconnect": (
        "no_session", "another_client", "never_established", "another_server", "old_number", "old_connect", "mine_wins", "never_written",
        "goes_on",
    ),
}

# what a step of a record, a move of a half or a read of an end comes to
MOVED, DRY, FULL, FAULT, GOT, ENDED, TAKEN = "moved", "dry", "full", "fault", "got", "ended", "taken"


class Message:
    """A posted message: its kind, its priority, and its three parts as bytes."""

    def __init__(self, kind, priority, parts):
        self.kind, self.priority, self.parts = kind, priority, parts

    @staticmethod
    def of(words):
        """From the words KIND PRIORITY FRONT MIDDLE DATA."""
        return Message(int(words[0]), int(words[1]), [bytes.fromhex(word.strip("-")) for word in words[2:5]])

    def words(self):
        return [part.hex() or "-" for part in self.parts]


class End:
    """One end of a socket: what was composed, written and read on it ("A scenario's script")."""

    def __init__(self, node, name, seen, cut=None):
        self.node, self.name = node, name
        self.seen = seen  # the address of the other side, for a HELLO
        self.cut = cut  # how many bytes may still be read and written, where a line cuts the socket
        self.text, self.put = bytearray(), 0  # what was composed, and how many bytes of it were written
        self.source, self.readable, self.got = bytearray(), 0, 0  # the other end's text; how much has come and was read
        self.taken, self.known = 0, None  # how many of these bytes are taken as frames, and the frame behind them
        self.closed = False
        self.fails = False  # a fault: every call fails from now on
        self.other_is_closed = False  # as this end was told
        self.no_more_comes = False

    def compose(self, text):
        self.text += text

    def is_to_be_put(self):
        return len(self.text) > self.put

    def is_broken(self):
        return self.fails or self.cut == 0

    def within_cut(self, count):
        """As many of these bytes as the cut lets through."""
        if self.cut is None:
            return count
        count = min(count, self.cut)
        self.cut -= count
        return count

    def write(self):
        """Puts what is composed; the bytes, or None where that failed."""
        if self.is_broken() or self.other_is_closed:
            return None
        start = self.put
        self.put += self.within_cut(len(self.text) - start)
        return bytes(self.text[start : self.put])

    def read(self):
        """Reads what has come; how many bytes, or why there are none."""
        if self.is_broken():
            return FAULT, 0
        if self.got == self.readable:
            return (ENDED if self.no_more_comes else DRY), 0
        count = self.within_cut(min(self.readable - self.got, MOST_READ))
        self.got += count
        return GOT, count

    def front(self):
        """The next frame, where it was read whole; of the banner the tag alone."""
        if self.taken == 0:
            length = wire.banner_length(self.source[: min(self.got, 10)])
            return wire.Frame(BANNER, [], 0, length, False) if length and length <= self.got else None
        if self.known is None:
            self.known = wire.frame_at(self.source, self.taken, self.got)
        return self.known

    def coming(self):
        """How many bytes a MESSAGE asks for that is next and whose preamble was read; else None. A half takes it for a fault."""
        if self.taken == 0 or self.got - self.taken < wire.PREAMBLE or self.source[self.taken] != MESSAGE:
            return None
        return sum(wire.length_of(bytes(self.source[self.taken : self.taken + wire.PREAMBLE]))[1][1:])

    def take(self):
        """Takes the frame at the front."""
        self.taken, self.known = self.front().end, None


def greeting(end, tag, own_nonce):
    """A frame of the handshake, or the banner ("The steps", what is written)."""
    if tag == HELLO:
        return wire.hello(end.node.entity, end.seen, own_nonce)
    return {BANNER: wire.banner, AUTH_REQUEST: wire.auth_request, AUTH_DONE: wire.auth_done, AUTH_SIGNATURE: wire.auth_signature}[tag]()


def shake_hands(end, steps, at):
    """Takes the step of the handshake at this place, where what it reads is there; gives the place of the next one."""
    awaited, written = steps[at]
    if awaited is not None:
        frame = end.front()
        if frame is None:
            return at
        wire.must(frame.tag == awaited, f"a frame with tag {frame.tag} stands in the handshake")
        end.take()
    for tag in written:
        end.compose(greeting(end, tag, None if steps is OPENER else 0))
    return at + 1


class OutQueue:
    """What a side has to write ("Priorities and paths"): messages with a number, and then those that wait for one."""

    def __init__(self):
        self.numbered = []  # those that aren't acknowledged
        self.acknowledged = 0  # the number before the first of these
        self.next = 0  # the place among these of the next one to write
        self.waiting = []

    def is_empty(self):
        return not self.numbered and not self.waiting

    def has_next(self):
        return self.next < len(self.numbered) or bool(self.waiting)

    def take_next(self):
        """The next message with its number; where none that has one is left, the oldest of the greatest priority."""
        if self.next == len(self.numbered):
            greatest = max(message.priority for message in self.waiting)
            place = next(at for at, message in enumerate(self.waiting) if message.priority == greatest)
            self.numbered.append(self.waiting.pop(place))
        self.next += 1
        return self.numbered[self.next - 1], self.acknowledged + self.next

    def written(self):
        return self.acknowledged + len(self.numbered)

    def acknowledge(self, number):
        """Whether that counts something."""
        count = number - self.acknowledged
        if count > 0:
            self.numbered = self.numbered[count:]
            self.next = max(0, self.next - count)
            self.acknowledged = number
        return count > 0

    def requeue(self):
        self.next = 0

    def number_from_one(self):
        self.acknowledged = self.next = 0

    def discard(self):
        self.numbered, self.waiting = [], []
        self.number_from_one()


Letter = collections.namedtuple("Letter", "message number granted")
DISCARD, REMOTE_RESET = "discard", "reset"  # the other parcels


class Record:
    """A node's side of a link: its session, its feed, and what it has to write ("Sessions", "The step that is due")."""

    def __init__(self, node, peer, policy):
        self.node, self.peer = node, peer
        self.lossy, self.server, self.standby, self.resetcheck = POLICIES[policy]
        self.phase = ABSENT
        self.client_cookie = self.server_cookie = 0
        self.peer_global = 0
        self.connect = 0
        self.lost_in_ready = False
        self.queue = OutQueue()
        self.accepted = 0  # the number of the last message that was accepted
        self.owes_ack = False
        self.feed = None
        self.signing = None  # the step of the handshake that is next on a socket that this side opened
        self.claims_too_much = False  # a resumption that was taken acknowledges more than was written
        self.granted = None  # what the throttle granted for the message at the front
        self.last_text = None  # the tag of what was composed last on the feed, behind a handshake
        self.wants_dial = False
        self.next_dial, self.next_wait = 0, node.first_wait
        self.was_marked_down = False
        self.steps = self.posts = 0  # of the plan that were taken
        self.parcels = []  # what is ready for the dispatchers

    def tell(self, *words):
        self.node.tell_entry(self, [str(word) for word in words])

    def standing(self):
        """Its session in the words of a trace, the moment before which no connect is due, and how far its messages have come."""
        numbers = (self.client_cookie, self.server_cookie, self.peer_global, self.connect)
        queue = self.queue
        counts = (self.accepted, self.granted or 0, queue.acknowledged, queue.acknowledged + len(queue.numbered), len(queue.waiting))
        lost = "yes" if self.lost_in_ready else "no"
        return [self.phase, *(str(it) for it in numbers), lost, str(self.next_dial), *(str(it) for it in counts)]

    # ---- the plan ("A scenario's script")

    def post(self, message):
        self.tell("post", self.steps)
        self.steps += 1
        self.posts += 1
        self.queue.waiting.append(message)

    def dial(self):
        self.tell("dial")
        self.steps += 1
        if self.phase in (ABSENT, STANDBY):
            self.wants_dial = True

    def mark_down(self):
        self.tell("down", "planned")
        self.steps += 1
        self.close("down")
        self.set_back()
        self.discard()
        self.forget()
        self.connect = 0
        self.lost_in_ready = self.wants_dial = False
        self.was_marked_down = True

    # ---- the effects ("Steps")

    def close(self, cause):
        if self.feed is not None:
            self.feed.closed = True
            self.tell("closed", self.feed.name, cause)
        self.feed = self.signing = None
        self.claims_too_much = False
        self.give_back()

    def give_back(self):
        if self.granted is not None:
            self.node.out -= self.granted
            self.granted = None

    def set_back(self):
        self.accepted = 0
        self.queue.number_from_one()

    def discard(self):
        self.queue.discard()
        self.parcels.append(DISCARD)

    def forget(self):
        self.phase = ABSENT
        self.client_cookie = self.server_cookie = 0

    def wait(self, now):
        """A wait begins; the next one is twice as long, up to the longest ("When a side connects")."""
        self.phase = WAITING
        self.next_dial = now + self.next_wait
        self.next_wait = min(2 * self.next_wait, self.node.most_wait)

    def is_ready(self):
        """The session is Ready, so the next wait is the first again."""
        self.phase, self.next_wait = READY, self.node.first_wait

    def fault(self, now, cause="failed"):
        """A broken feed, the first row that holds."""
        self.lost_in_ready = self.lost_in_ready or self.phase == READY
        self.close(cause)
        self.queue.requeue()
        if self.lossy:
            self.forget()
            self.discard()
        elif self.server or (self.standby and self.queue.is_empty()):
            self.phase = STANDBY
        else:
            self.wait(now)
        return FAULT

    def cookie(self, number):
        """"What each answer writes", cookies: the place, the salt and the number, or 0 for a lossy policy."""
        return 0 if self.lossy else self.node.number + 1 << 56 | self.node.salt << 40 | number % 2**40

    # ---- "When a side connects"

    def connects(self, now):
        """Whether a connect is due. While something is ready for the dispatchers, that is the step that is due."""
        if self.server or self.parcels or now < self.next_dial:
            return False
        if self.phase in (ABSENT, STANDBY):
            return self.wants_dial or not self.queue.is_empty()
        return self.phase == WAITING

    def why_connects(self):
        """What makes a connect due, as a trace has it; what is to be written goes before a dial that was asked for."""
        if self.phase == WAITING:
            return "waited"
        return "dialled" if self.queue.is_empty() else "posted"

    def open(self, feed):
        """Dialled, on this end."""
        self.tell("opened", feed.name, self.why_connects())
        self.feed, self.signing, self.last_text, self.phase = feed, 0, None, CONNECTING
        self.connect += self.lost_in_ready
        self.lost_in_ready = self.wants_dial = False

    # ---- the judgements, in the order of their tables

    def judge_ident(self, ask):
        """"An ident is judged": the first row that holds, with its answer, and whether that is full."""
        keeps_both = self.client_cookie != 0 and self.server_cookie != 0
        rows = (
            ("no_session", self.phase == ABSENT, "accept"),
            ("old_number", self.peer_global > ask["global"], "close"),
            ("lossy", self.lossy, "accept_over"),
            ("another_client", keeps_both and self.client_cookie != ask["client"], "accept_reset"),
            ("same_client", self.client_cookie != 0 and self.client_cookie == ask["client"], "accept_again"),
            ("settled", self.phase in (READY, STANDBY), "accept_replace"),
            ("peer_wins", self.server or self.peer.address.rank() < self.node.address.rank(), "accept_race"),
            ("mine_wins", True, "wait"),
        )
        return self.first_of("ident", rows)

    def judge_reconnect(self, ask):
        """"A reconnect is judged": the same of a reconnect."""
        is_above = self.node.address.rank() < self.peer.address.rank()
        mine_wins = self.connect == ask["connect"] and is_above and not self.server and self.phase != STANDBY
        rows = (
            ("no_session", self.phase == ABSENT, "reset"),
            ("another_client", self.client_cookie != ask["client"], "reset"),
            ("never_established", self.server_cookie == 0, "reset_pending"),
            ("another_server", self.server_cookie != ask["server"], "reset"),
            ("old_number", self.peer_global > ask["global"], "retry_global"),
            ("old_connect", self.connect > ask["connect"], "retry"),
            ("mine_wins", mine_wins, "wait"),
            ("never_written", ask["seen"] > self.queue.written(), "close"),
            ("goes_on", True, "resume"),
        )
        return self.first_of("reconnect", rows)

    def first_of(self, kind, rows):
        row, answer = next((row, answer) for row, holds, answer in rows if holds)
        full = self.resetcheck and answer in ("accept_reset", "reset")
        self.node.run.meets(kind, row, full if answer in ("accept_reset", "reset") else None)
        return row, answer, full

    def judge(self, end, ask, number, now):
        """An ask on a socket of the peer is judged, with this number: the answer, and what is written where it takes no socket."""
        is_ident = ask.tag == CLIENT_IDENT
        says = ask.says()
        row, answer, full = self.judge_ident(says) if is_ident else self.judge_reconnect(says)
        told = {"retry_global": [self.peer_global], "retry": [self.connect]}.get(answer, [])
        told += ["full" if full else "part"] if answer in ("accept_reset", "reset") else []
        numbers = [says.get(name, 0) for name in ("client", "server", "global", "connect", "seen")]
        self.tell("judged", number, end.name, "ident" if is_ident else "reconnect", *numbers, answer, *told, row)
        if answer == "resume":
            self.take_reconnect(end, says)
        elif answer.startswith("accept"):
            self.take_ident(end, says, number, full)
        elif answer == "reset_pending":
            self.leave_pending(now)
        return answer, self.refusal(answer, full)

    def refusal(self, answer, full):
        """"What each answer writes", of those that take no socket."""
        if answer in ("reset", "reset_pending"):
            return wire.framed(RESET, bytes([full]))
        if answer == "retry_global":
            return wire.framed(RETRY_GLOBAL, wire.words(self.peer_global))
        if answer == "retry":
            return wire.framed(RETRY, wire.words(self.connect))
        return wire.framed(WAIT, b"") if answer == "wait" else None

    # ---- "What the answers do"

    def take_ident(self, end, ask, number, full):
        """TookIdent: the socket becomes the feed, and a SERVER_IDENT is written."""
        self.take_over(end)
        self.client_cookie = 0 if self.lossy else ask["client"]
        self.server_cookie = self.cookie(number)
        self.peer_global = max(self.peer_global, ask["global"])
        self.connect = 0
        self.set_back()
        if full:
            self.discard()
            self.parcels.append(REMOTE_RESET)
        self.compose(SERVER_IDENT, self.node.address.vector(), self.own_facts(number, self.server_cookie))

    def take_reconnect(self, end, ask):
        """TookReconnect: the session goes on on this socket."""
        self.take_over(end)
        self.peer_global, self.connect = ask["global"], ask["connect"]
        self.count_seen(ask["seen"])
        self.compose(RECONNECT_OK, wire.words(self.accepted))

    def count_seen(self, seen):
        """What a resumption acknowledges is counted by the step that takes it, behind the entry of that and of a feed that it
        closed. More than was written is a fault then, when the front is looked at."""
        self.claims_too_much = seen > self.queue.written()
        if not self.claims_too_much and self.queue.acknowledge(seen):
            self.tell("acked", seen)

    def take_over(self, end):
        self.close("taken")
        self.queue.requeue()
        self.feed = end
        self.is_ready()
        self.lost_in_ready = self.wants_dial = False

    def leave_pending(self, now):
        """Pending: Standby stays, and a wait that is on is left as it is."""
        self.close("pending")
        self.queue.requeue()
        if self.phase not in (STANDBY, WAITING):
            self.wait(now)

    # ---- "The step that is due"

    def step(self, now):
        if self.parcels:
            self.node.hand(self, self.parcels.pop(0))
            return MOVED
        if self.feed is None:
            return DRY
        if self.feed.is_to_be_put():
            return self.write(now)
        came = self.look_at_front(now)
        if came is not None:
            return came
        if self.compose_next():
            return MOVED
        came, count = self.feed.read()
        if came == GOT:
            return self.took(count, now)
        return DRY if came == DRY else self.fault(now, "ended" if came == ENDED else "failed")

    def write(self, now):
        written = self.feed.write()
        if written is None:
            return self.fault(now)
        self.tell("wrote", self.feed.name, len(written), written.hex() or "-")
        if not self.feed.is_to_be_put() and self.last_text in (MESSAGE, ACK):
            self.owes_ack = False
        return MOVED

    def took(self, count, now):
        """What a read comes to: an answer is taken by the read that completes it, but for a reset."""
        self.tell("read", self.feed.name, count)
        frame = self.feed.front() if self.phase in (IDENT_SENT, RECONNECT_SENT) and self.feed.coming() is None else None
        return MOVED if frame is None or frame.tag == RESET else self.hear(frame, now)

    def look_at_front(self, now):
        """What the front of the feed comes to, or None where nothing there has an answer."""
        if self.signing is not None:
            before = self.signing
            self.signing = shake_hands(self.feed, OPENER, before)
            moved = self.signing > before
            if self.signing == len(OPENER):
                self.signing = None
            return MOVED if moved else None
        if self.claims_too_much:
            return self.fault(now)
        size = self.feed.coming()
        if size is not None:
            if self.phase != READY:
                return self.fault(now)
            if self.granted is None:
                if self.node.is_full_for(size):
                    return FULL
                self.granted = size
                self.node.out += self.granted
                return MOVED
        frame = self.feed.front()
        return None if frame is None else self.hear(frame, now)

    def count(self, seen, now):
        """What the peer acknowledges: more than was written is the fault BadAck."""
        if seen > self.queue.written():
            return self.fault(now)
        if self.queue.acknowledge(seen):
            self.tell("acked", seen)
        return MOVED

    def hear(self, frame, now):
        """"What comes on a feed": a frame is taken as its phase says, and any other is Unexpected."""
        takes = {
            (IDENT_SENT, SERVER_IDENT): self.got_server_ident,
            (IDENT_SENT, WAIT): self.got_wait,
            (RECONNECT_SENT, WAIT): self.got_wait,
            (RECONNECT_SENT, RECONNECT_OK): self.got_reconnect_ok,
            (RECONNECT_SENT, RETRY): self.got_retry,
            (RECONNECT_SENT, RETRY_GLOBAL): self.got_retry_global,
            (RECONNECT_SENT, RESET): self.got_reset,
            (READY, ACK): self.got_ack,
            (READY, MESSAGE): self.got_message,
        }
        take = takes.get((self.phase, frame.tag))
        if take is None:
            return self.fault(now, "refused" if frame.tag == MISSING_FEATURES else "failed")
        if frame.tag != MESSAGE:
            self.feed.take()
        return take(frame, now)

    def got_server_ident(self, frame, now):
        says = frame.says()
        self.is_ready()
        self.server_cookie = says["server"]
        self.peer_global = max(self.peer_global, says["global"])
        self.connect = 0
        self.set_back()
        return MOVED

    def got_wait(self, frame, now):
        self.close("waited")
        self.queue.requeue()
        self.wait(now)
        return FAULT

    def got_reconnect_ok(self, frame, now):
        self.is_ready()
        self.count_seen(frame.says()["number"])
        return MOVED

    def got_retry(self, frame, now):
        self.phase = CONNECTING
        self.connect = frame.says()["number"] + 1
        return MOVED

    def got_retry_global(self, frame, now):
        self.phase = CONNECTING
        self.node.drawn = max(self.node.drawn, frame.says()["number"])
        return MOVED

    def got_reset(self, frame, now):
        full = frame.says()["full"] == 1
        self.tell("obeyed", "full" if full else "part")
        self.phase = CONNECTING
        self.server_cookie = self.connect = 0
        self.set_back()
        if full:
            self.client_cookie = 0
            self.discard()
            self.parcels.append(REMOTE_RESET)
        return MOVED

    def got_ack(self, frame, now):
        return self.count(frame.says()["number"], now)

    def got_message(self, frame, now):
        """What it acknowledges is counted first, by a step of its own. Then an old one is passed over, one above the next is
        a gap, and the next one is accepted."""
        says = frame.says()
        is_new = not frame.aborted and says["seq"] > self.accepted
        if not frame.aborted:
            if says["seq"] > self.accepted + 1 or says["acked"] > self.queue.written():
                return self.fault(now)
            if says["acked"] > self.queue.acknowledged:
                return self.count(says["acked"], now)
        self.feed.take()
        if not is_new:
            self.give_back()
            return MOVED
        self.accepted = says["seq"]
        self.tell("accepted", self.accepted, says["priority"], "fast" if says["kind"] in self.node.fast else "queued")
        self.owes_ack = True
        self.parcels.append(Letter(Message(says["kind"], says["priority"], frame.parts()), self.accepted, self.granted))
        self.granted = None
        return MOVED

    def compose(self, tag, *parts):
        """A control frame."""
        self.last_text = tag
        self.feed.compose(wire.framed(tag, b"".join(parts)))

    def compose_next(self):
        """"The step that is due", what is to be composed; whether something was."""
        if self.signing is not None:
            return False
        if self.phase == CONNECTING:
            self.ask()
        elif self.phase == READY and self.queue.has_next():
            message, number = self.queue.take_next()
            self.tell("numbered", number)
            self.last_text = MESSAGE
            self.feed.compose(wire.message(message.kind, message.priority, message.parts, number, self.accepted))
            if self.lossy:
                self.queue.acknowledge(number)
        elif self.phase == READY and self.owes_ack and not self.lossy:
            self.compose(ACK, wire.words(self.accepted))
        else:
            return False
        return True

    def ask(self):
        """A reconnect where the session has a server cookie, else an ident."""
        number = self.node.draw()
        if self.server_cookie != 0:
            self.phase = RECONNECT_SENT
            self.tell("asked", "reconnect", number)
            numbers = (self.client_cookie, self.server_cookie, number, self.connect, self.accepted)
            self.compose(RECONNECT, self.node.address.vector(), wire.words(*numbers))
            return
        self.phase = IDENT_SENT
        self.tell("asked", "ident", number)
        if self.client_cookie == 0:
            self.client_cookie = self.cookie(number)
        facts = self.own_facts(number, self.client_cookie)
        self.compose(CLIENT_IDENT, self.node.address.vector(), self.peer.address.text(), facts)

    def own_facts(self, number, cookie):
        """What stands in an ident behind the addresses."""
        return wire.words(self.node.number, number, self.node.supports, self.node.requires, self.lossy, cookie)


class Half:
    """A socket that a peer opened and no record has taken: the handshake and the peer's asks ("The handshake")."""

    def __init__(self, node, end):
        self.node, self.end = node, end
        self.signing = 0
        self.is_ended = False  # behind WAIT or IDENT_MISSING_FEATURES
        self.is_taken = False
        self.was_judged = False  # in this turn
        self.tell("accepted")

    def tell(self, what, *words):
        self.node.tell_trail([what, self.end.name, *(str(word) for word in words)])

    def turn(self, now):
        """"A half's turn"; whether the half stays."""
        self.was_judged = False
        for _ in range(2 * MOST_MOVES):
            came = self.move(now)
            if came != MOVED:
                return came == DRY
        return True

    def move(self, now):
        """Writes, else answers, else reads; a fault closes the socket."""
        came = self.write() if self.end.is_to_be_put() else self.answer(now) or self.read()
        if came in (FAULT, ENDED):
            self.close("refused" if self.was_judged else "ended" if came == ENDED else "failed")
        return came

    def close(self, cause):
        self.end.closed = True
        self.tell("closed", cause)

    def write(self):
        written = self.end.write()
        if written is None:
            return FAULT
        self.tell("wrote", len(written), written.hex() or "-")
        return MOVED

    def read(self):
        came, count = self.end.read()
        if came != GOT:
            return came
        self.tell("read", count)
        return MOVED

    def answer(self, now):
        """What comes of what was read, or None where it gives no answer."""
        if self.signing < len(ACCEPTOR):
            before = self.signing
            self.signing = shake_hands(self.end, ACCEPTOR, before)
            return MOVED if self.signing > before else None
        if self.end.coming() is not None:
            return FAULT
        ask = self.end.front()
        if ask is None:
            return None
        if self.is_ended:
            return FAULT
        wire.must(ask.tag in (CLIENT_IDENT, RECONNECT), f"a frame with tag {ask.tag} stands where an ask should")
        self.end.take()
        return self.answer_ask(ask, self.node.record_of(ask.says()["address"]), now)

    def answer_ask(self, ask, record, now):
        missing = self.node.requires & ~ask.says().get("supports", self.node.requires)
        if missing:
            self.node.run.meets("ident", "missing features", None)
            return self.reply(wire.framed(MISSING_FEATURES, wire.words(missing)), True)
        self.was_judged = True
        answer, written = record.judge(self.end, ask, self.node.draw(), now)
        self.is_taken = record.feed is self.end
        if self.is_taken:
            return TAKEN
        return FAULT if written is None else self.reply(written, answer == "wait")

    def reply(self, text, is_last):
        self.is_ended = is_last
        self.end.compose(text)
        return MOVED
