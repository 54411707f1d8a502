#!/usr/bin/env python3
"""Lays the ordered channel with lives beside random runs of two nodes that mark each other down.

usage: checks/lives.py N [SEED]

Each run is played by the model of `sim` (tools/model.py), of one lossless link. What its two sides did shows steps of the
channel with lives (crates/m2_lives/specs), in the order of the run and in three others in which each byte is read behind its
writing. Each step has to be one that the channel may take where those before it lead, and in the end each receiving life has
to have accepted the first ones of what the sending life of its name holds. Of each key, what was dispatched has to be one piece
of each stretch between two discards, of each life, and of what the sending life of each receiving life's name holds, in order,
each the first ones of it. Then each of the wrong bodies is played, which some run has to refuse; 100 runs did, of each, with every
seed that was tried.
"""
import collections, os, random, sys

sys.dont_write_bytecode = True
sys.path.insert(0, os.path.join(os.path.dirname(os.path.abspath(__file__)), "..", "tools"))
import model, sides

ORDERS = 3


# ---- what a run does, in its order


class Event:
    def __init__(self, node, kind, **words):
        self.node, self.kind = node, kind
        self.__dict__.update(words)


class Watch:
    """The events of a run, and the wrong body that it plays."""

    def __init__(self, wrong=None):
        self.events, self.wrong = [], wrong
        self.lives, self.kept = {}, []  # of each letter the life that it was accepted in
        self.late = {}  # of a node a letter that it keeps back

    def note(self, node, kind, **words):
        self.events.append(Event(node, kind, **words))


watch = Watch()


def wrapped(of, name, around):
    old = getattr(of, name)
    setattr(of, name, lambda self, *rest: around(old, self, *rest))


def posts(old, record, message):
    watch.note(record.node, "post", message=message)
    old(record, message)


def begins(thrown_by):
    """Around a method that sets numbers back: what it throws away, and whether that is obeyed in full."""

    def around(old, record, *rest):
        came = old(record, *rest)
        thrown, obeys = thrown_by(record, rest)
        record.life = record.server_cookie
        watch.note(record.node, "begin", name=record.life, thrown=thrown, obeys=obeys, marks=old.__name__ == "mark_down")
        return came

    return around


def counts(old, queue, number):
    """What an acknowledgement drops."""
    dropped = queue.numbered[: max(0, number - queue.acknowledged)]
    came = old(queue, number)
    if came and queue.record is not None and not queue.record.lossy:
        queue.record.dropped = dropped
    return came


def tells(old, record, *words):
    if words[0] == "acked":
        watch.note(record.node, "ack", messages=record.dropped, number=words[1], life=record.life)
    old(record, *words)


def makes(old, record, *rest):
    old(record, *rest)
    record.queue.record, record.life = record, 0


def accepts(old, record, frame, now):
    before = len(record.parcels)
    came = old(record, frame, now)
    if len(record.parcels) > before:
        letter = record.parcels[-1]
        watch.kept.append(letter)
        watch.lives[id(letter)] = record.life
        watch.note(record.node, "accept", message=letter.message)
    return came


def dispatches(old, node, peer, letter, path, lines):
    watch.note(node, "dispatch", message=letter.message, life=watch.lives[id(letter)])
    old(node, peer, letter, path, lines)


def moves(kind):
    def around(old, end):
        came = old(end)
        watch.note(end.node, kind, text=id(end.text if kind == "put" else end.source), count=end.put if kind == "put" else end.got)
        return came

    return around


wrapped(sides.Record, "__init__", makes)
wrapped(sides.Record, "post", posts)
wrapped(sides.Record, "mark_down", begins(lambda record, rest: (True, False)))
wrapped(sides.Record, "take_ident", begins(lambda record, rest: (rest[3], False)))
wrapped(sides.Record, "got_server_ident", begins(lambda record, rest: (False, False)))
wrapped(sides.Record, "got_reset", begins(lambda record, rest: (rest[0].says()["full"] == 1,) * 2))
wrapped(sides.Record, "got_message", accepts)
wrapped(sides.Record, "tell", tells)
wrapped(sides.OutQueue, "acknowledge", counts)
wrapped(sides.End, "write", moves("put"))
wrapped(sides.End, "read", moves("got"))
wrapped(model.Node, "dispatch", dispatches)


# ---- wrong bodies


def discards(old, queue):
    if watch.wrong != "discard_keeps_messages":
        old(queue)


def judges(old, record, ask):
    if watch.wrong != "server_cookie_not_compared" or record.phase == sides.ABSENT or record.client_cookie != ask["client"]:
        return old(record, ask)
    if record.server_cookie == 0:
        return old(record, ask)
    return old(record, dict(ask, server=record.server_cookie))


def sorts(old, node):
    if watch.wrong == "newest_first":
        node.mail.sort(key=lambda it: 0 if not isinstance(it[1], sides.Letter) else -it[1].number)
    late = None
    if watch.wrong == "older_life_later":
        letters = [it for it in node.mail if isinstance(it[1], sides.Letter)]
        if node not in watch.late and letters:
            watch.late[node] = letters[-1]
            node.mail.remove(letters[-1])
        elif any(watch.lives[id(it[1])] != watch.lives[id(watch.late[node][1])] for it in letters):
            late = watch.late.pop(node)
    old(node)
    if late is not None:
        node.dispatch(*late, "queued", node.behind_queue)


wrapped(sides.OutQueue, "discard", discards)
wrapped(sides.Record, "judge_reconnect", judges)
wrapped(model.Node, "sort_mail", sorts)
RECORDS = ("discard_keeps_messages", "server_cookie_not_compared", "newest_first", "older_life_later")
CHANNELS = ("begins_at_the_length", "acknowledged_for_the_life_before")


# ---- the channel with lives


class Refused(Exception):
    pass


def must(holds, why):
    if not holds:
        raise Refused(why)


class Life:
    def __init__(self, name, start=None, end=None):
        count = collections.Counter
        self.name = name
        self.start, self.end, self.acknowledged = count(start or {}), count(end or {}), count()
        self.accepted, self.dispatched = count(), count()


class Channel:
    """The state, and a method for each step: when it may be taken, and what it changes."""

    def __init__(self, wrong=None):
        self.posted = collections.defaultdict(list)
        self.sending, self.receiving = [Life(0)], [Life(0)]
        self.marked, self.wrong = False, wrong
        self.accepted = collections.defaultdict(list)  # of each name and key, to be looked at in the end

    def post(self, key, message):
        self.posted[key].append(message)
        self.sending[-1].end[key] += 1

    def begins_sending(self, name, thrown):
        must(name == 0 or all(life.name != name for life in self.sending), "a sending life has this name")
        old = self.sending[-1]
        thrown = thrown or self.wrong == "begins_at_the_length"
        start = old.end if thrown else old.start + old.acknowledged
        self.sending.append(Life(name, start, old.end))

    def begins_receiving(self, name):
        must(name == 0 or all(life.name != name for life in self.receiving), "a receiving life has this name")
        self.receiving.append(Life(name))

    def accept(self, key, message):
        now = self.receiving[-1]
        must(now.name != 0, "accepted in a life without a name")
        held = [life for life in self.sending if life.name == now.name]
        must(held, "accepted in a life that the other side never sent in")
        place = held[0].start[key] + now.accepted[key]
        must(place < held[0].end[key], "accepted more than the life holds")
        must(self.posted[key][place] is message or same(self.posted[key][place], message), "accepted another message")
        now.accepted[key] += 1
        self.accepted[now.name, key].append(message)

    def acknowledge(self, key):
        now = self.sending[-1]
        must(now.name != 0, "acknowledged in a life without a name")
        if self.wrong == "acknowledged_for_the_life_before" and len(self.sending) > 1:
            now = next((life for life in reversed(self.sending[:-1]) if life.name != 0), now)
        seen = [life for life in self.receiving if life.name == now.name]
        must(seen and now.acknowledged[key] < seen[0].accepted[key], "acknowledged more than was accepted")
        now.acknowledged[key] += 1

    def dispatch(self, name, key, message):
        must(name != 0, "dispatched of a life without a name")
        places = [at for at, life in enumerate(self.receiving) if life.name == name]
        must(places, "dispatched of no life")
        life = self.receiving[places[0]]
        must(life.dispatched[key] < life.accepted[key], "dispatched more than was accepted")
        must(all(later.dispatched[key] == 0 for later in self.receiving[places[0] + 1 :]), "dispatched behind a later life")
        held = [sent for sent in self.sending if sent.name == name]
        must(held and same(self.posted[key][held[0].start[key] + life.dispatched[key]], message), "dispatched another message")
        life.dispatched[key] += 1

    def reset(self):
        must(self.marked, "a reset without a mark-down before it")

    def held(self, name, key):
        return [m for life in self.sending if life.name == name for m in self.posted[key][life.start[key] : life.end[key]]]

    def is_delivered(self):
        """What is promised of a run: in each life the first ones of what the sending life of its name holds."""
        for (name, key), messages in self.accepted.items():
            held = self.held(name, key)
            must(len(messages) <= len(held) and all(map(same, messages, held)), "not the first ones of the life")
        for life in self.sending + self.receiving:
            for key in self.posted:
                must(life in self.receiving or life.start[key] + life.acknowledged[key] <= life.end[key], "acknowledged beyond the end")
                must(life.dispatched[key] <= life.accepted[key] or life in self.sending, "dispatched beyond what was accepted")


def same(one, other):
    return (one.kind, one.priority, one.parts) == (other.kind, other.priority, other.parts)


def are_pieces(messages, lists):
    """Whether the messages are one piece of each list, in order, each the first ones of it."""
    places = {0}
    for items in lists:
        further = set()
        for place in places:
            further.add(place)
            for item in items:
                if place == len(messages) or not same(messages[place], item):
                    break
                place += 1
                further.add(place)
        places = further
    return len(messages) in places


# ---- what a run shows of it


def key_at(node, message):
    return message.priority, "fast" if message.kind in node.fast else "queued"


def observe(events, near, far, wrong=None):
    """The steps that the entries show from the near node to the far one, and behind them the dispatches."""
    channel = Channel(wrong)
    accepted = collections.Counter()
    of_life = collections.Counter()
    lists = lambda: collections.defaultdict(list)
    stretches, lives, heard = [lists()], [lists()], lists()
    for event in events:
        mine = event.node is near
        if event.kind == "post" and mine:
            channel.post(key_at(far, event.message), event.message)
        elif event.kind == "ack" and mine:
            must(event.number <= of_life[event.life], "acknowledged more than the other side's life of this name")
            for message in event.messages:
                channel.acknowledge(key_at(far, message))
        elif event.kind == "accept":
            accepted[event.node] += 1
            if not mine:
                of_life[channel.receiving[-1].name] += 1
                channel.accept(key_at(far, event.message), event.message)
                stretches[-1][key_at(far, event.message)].append(event.message)
                lives[-1][key_at(far, event.message)].append(event.message)
        elif event.kind == "begin":
            channel.marked = channel.marked or event.marks
            if mine:
                channel.begins_sending(event.name, event.thrown)
            else:
                channel.begins_receiving(event.name)
                lives.append(lists())
                stretches += [lists()] * event.thrown
            if event.thrown or event.obeys or sum(accepted.values()) > 0:
                channel.reset()
    for event in events:
        if event.kind == "dispatch" and event.node is far:
            channel.dispatch(event.life, key_at(far, event.message), event.message)
            heard[key_at(far, event.message)].append(event.message)
    channel.is_delivered()
    for key, messages in heard.items():
        must(are_pieces(messages, [it[key] for it in stretches]), "not in pieces of what was handed on")
        must(are_pieces(messages, [it[key] for it in lives]), "not in pieces of what was accepted in each life")
        must(are_pieces(messages, [channel.held(life.name, key) for life in channel.receiving]), "not life after life")
    return channel


def another_order(events, draw):
    """The same events, each node's in its order, where no byte is read before it was written."""
    strands = collections.defaultdict(collections.deque)
    for event in events:
        strands[event.node].append(event)
    written, order = collections.Counter(), []
    while any(strands.values()):
        may = [s for s in strands.values() if s and (s[0].kind != "got" or s[0].count <= written[s[0].text])]
        strand = draw.choice(may)
        for _ in range(draw.choice((1, 1, 3, 20))):
            if not strand or (strand[0].kind == "got" and strand[0].count > written[strand[0].text]):
                break
            event = strand.popleft()
            if event.kind == "put":
                written[event.text] = event.count
            order.append(event)
    return order


# ---- random scenarios of one link


def scenario_of(draw):
    pair = draw.choice((("lossless_peer", "lossless_peer"),) * 2 + (("lossless_client", "stateful_server"),))
    ports = draw.sample((7001, 7002), 2)
    fast = draw.choice(("", " fast 1", " fast 1,2"))
    lines = [f"node {name} osd 127.0.0.1:{port}/{port}{fast}" for name, port in zip("ab", ports)]
    lines.append(f"link a b {pair[0]} {pair[1]}")
    posted = 0
    if draw.random() < 0.2:
        lines += judged_late(draw)
    for _ in range(draw.choice((12, 30, 60))):
        x, y = draw.choice(("ab", "ba"))
        what = draw.random()
        if what < 0.3:
            for _ in range(draw.choice((1, 1, 2, 5))):
                posted += 1
                lines.append(f"post {x} {y} {draw.choice((1, 3))} {draw.choice((127, 127, 196))} {posted:04x} - -")
        elif what < 0.42:
            lines.append(f"down {x} {y}")
            if draw.random() < 0.3:
                lines.append(f"down {y} {x}")
        elif what < 0.48:
            lines.append(f"dial {x} {y}")
        elif what < 0.58:
            lines.append(f"fault {x} {y}" + draw.choice(("", f" {draw.randint(1, 6)}")))
        elif what < 0.72:
            lines.append(f"flow {x} {y} {draw.randint(1, 6)} {draw.choice((40, 141, 300, 1000))}" if draw.random() < 0.7 else f"flow {x} {y}")
        elif what < 0.84:
            lines.append(f"turn {x}")
        elif what < 0.94:
            lines.append(f"settle {draw.choice((1, 2, 3, 7, 12))}")
        else:
            lines += held_back(draw)
    if draw.random() < 0.7:
        lines.append("settle 40")
    return "\n".join(lines) + "\n"


def held_back(draw):
    """Rounds in which nothing flows on one of the sockets, so that what was asked there is judged late."""
    late = draw.randint(1, 6)
    round_of = [f"flow {x} {y} {socket} 100000" for socket in range(1, 13) if socket != late for x, y in ("ab", "ba")] + ["turn a", "turn b"]
    return round_of * draw.choice((3, 6, 12))


def judged_late(draw):
    """An ident that its opener left is judged behind a mark-down of the judge, whose session the opener still keeps. Where nothing
    was accepted in that session yet, a judge that doesn't compare server cookies accepts in a life that the opener doesn't have."""
    posts, pieces = ["post a b 1 127 aa01 - -", "post a b 1 127 aa02 - -"], (26, 72, 52)
    before, behind = ["dial a b"], posts
    if draw.random() < 0.5:
        pieces, before, behind = [draw.choice((26, 52, 76, 100)) for _ in range(draw.randint(3, 6))], posts, []
    lines = ["dial a b"]
    for piece in pieces:
        lines += ["turn a", f"flow a b 1 {piece}", "turn b", "flow b a 1 100000"]
    lines += ["turn a", "fault a b 1", "turn a", *before]
    for _ in range(12):
        lines += [f"flow {x} {y} 2 100000" for x, y in ("ab", "ba")] + ["turn a", "turn b"]
    return lines + ["down b a", *behind, "flow a b 1 100000", "turn b", "turn b", "settle 30"]


def events_of(text, wrong=None):
    global watch
    watch = Watch(wrong)
    run = model.Run()
    run.play(text)
    return watch.events, list(run.nodes.values())


def refusal(text, draw, wrong=None):
    """Why the run or another order of it is refused, or None; and what it has shown."""
    try:
        events, (a, b) = events_of(text, wrong if wrong in RECORDS else None)
        shown = None
        for order in [events] + [another_order(events, draw) for _ in range(ORDERS)]:
            for near, far in ((a, b), (b, a)):
                channel = observe(order, near, far, wrong if wrong in CHANNELS else None)
                shown = shown or channel
        return None, shown
    except Refused as refused:
        return str(refused), None


def main(count, seed):
    held, lives, found = 0, collections.Counter(), collections.Counter()
    for at in range(count):
        draw = random.Random(f"{seed} {at}")
        text = scenario_of(draw)
        why, channel = refusal(text, draw)
        if why is not None:
            print(f"run {at} of seed {seed}: {why}\n{text}")
            return 1
        held += 1
        lives[min(6, len({life.name for life in channel.receiving if life.name and sum(life.accepted.values())}))] += 1
        for wrong in RECORDS + CHANNELS:
            if found[wrong] < 5 and refusal(text, draw, wrong)[0] is not None:
                found[wrong] += 1
    print(f"{held} runs held, each in {1 + ORDERS} orders and both directions; of receiving lives with messages, by their count: {dict(sorted(lives.items()))}")
    missed = [wrong for wrong in RECORDS + CHANNELS if not found[wrong]]
    for wrong in RECORDS + CHANNELS:
        print(f"{wrong}: {'refused' if found[wrong] else 'NOT REFUSED'}")
    return 1 if missed else 0


if __name__ == "__main__":
    if len(sys.argv) not in (2, 3):
        sys.exit(__doc__)
    sys.exit(main(int(sys.argv[1]), sys.argv[2] if len(sys.argv) == 3 else "1"))
