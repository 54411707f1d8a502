#!/usr/bin/env python3
"""A model of `msgr2 sim`: plays a scenario by the rules of docs/PROTOCOL.md, and prints what `sim` prints.

usage: tools/model.py SCENARIO
           the lines on standard output, and `left: N` on standard error with status 8
       tools/model.py --trace SCENARIO
           the trace of the run, as the program run_trace prints it
       tools/model.py --into FOLDER SCENARIO..
           of each what `sim` prints and its trace, as FOLDER/NAME.stdout, NAME.stderr, NAME.status and NAME.trace
       tools/model.py --rows SCENARIO..
           which rows of the judgement tables each scenario meets, and how often
       tools/model.py --table PAGE FOLDER
           compares the page's table "Where each row is met" with the scenarios of FOLDER

It knows docs/PROTOCOL.md and docs/SCENARIOS.md, and nothing of the crates; a name in double quotes is the heading there
that has the rule. Scenarios are taken to be good ones: bad lines, want of memory and numbers that are used up are left
out. tools/sides.py has the parts below a node, and tools/wire.py the bytes. checks/model.sh lays the model beside the
programs, and tools/run_trace.py beside a trace.
"""
import collections, os, re, sys

sys.dont_write_bytecode = True  # nothing is left in this folder
sys.path.insert(0, os.path.dirname(os.path.abspath(__file__)))
from sides import DISCARD, MOVED, REMOTE_RESET, ROWS, End, Half, Letter, Message, Record
from wire import Address

LEFT = 8  # the status where posts are left (docs/SCENARIOS.md, "How it ends")
ALL_FEATURES = 2**64 - 1
MOST = 2**64  # more bytes than a socket has
ENTITIES = {"mon": 1, "mds": 2, "osd": 4, "client": 8, "mgr": 16}

ACTS = ("turn", "post", "dial", "down")  # the lines by which their first node does something

# "A center's turn"
MOST_HALVES, MOST_ACCEPTS, MOST_STEPS, MOST_PARCELS = 64, 4096, 4096, 1024


class Node:
    """A node with its one center: port, records, halves, mail and dispatch queue ("A center's turn")."""

    def __init__(self, run, place, name, entity, address, options):
        self.run, self.name, self.address = run, name, address
        self.entity, self.number, self.salt = ENTITIES[entity], place, place + 1
        self.first_wait = self.most_wait = 1
        self.fast = {int(kind) for kind in options["fast"].split(",")} if "fast" in options else set()
        self.bound = int(options.get("throttle", 0))
        self.supports = int(options.get("supports", ALL_FEATURES))
        self.requires = int(options.get("requires", 0))
        self.out = 0  # bytes that the throttle has granted and that didn't come back
        self.drawn = 0  # the last global number that was drawn
        self.records, self.halves, self.port = [], [], []
        self.opened = []  # sockets since the last meeting
        self.openings = collections.Counter()  # how many sockets it has opened to each node
        self.mail = []
        self.last_lines = {}  # of each record the last line of its journal
        self.lines, self.at_once, self.behind_queue = [], [], []  # what is printed of it, and of that the lines of a turn

    # ---- what it tells

    def tell(self, *words):
        self.run.told.append(f"  {self.name} {' '.join(words)}")

    def tell_entry(self, record, words):
        """A trace has a close right behind the judgement that it follows in the journal, whatever a half writes in between."""
        self.tell("journal", record.peer.name, *words)
        told, line = self.run.told, self.run.told[-1]
        if words[-1] in ("taken", "pending") and self.last_lines.get(record) in told:
            told.insert(told.index(self.last_lines[record]) + 1, told.pop())
        self.last_lines[record] = line

    def tell_trail(self, words):
        self.tell("trail", *words)

    def standings(self):
        """Of each record what a trace tells of where it stands."""
        return [record.standing() for record in self.records]

    def tell_standings(self, before):
        """Those of the records that stood otherwise before."""
        for record, was, words in zip(self.records, before, self.standings()):
            if words != was:
                self.tell("session", record.peer.name, *words)

    def tell_throttle(self, before):
        """What the throttle has out, where that is otherwise than before."""
        if self.out != before:
            self.tell("throttle", str(self.out))

    def facts(self):
        numbers = (self.entity, self.number, self.salt, self.supports, self.requires, self.first_wait, self.most_wait)
        return " ".join(map(str, numbers))

    # ---- what its records and halves ask of it

    def draw(self):
        self.drawn += 1
        return self.drawn

    def record_of(self, address):
        return next(record for record in self.records if str(record.peer.address) == address)

    def towards(self, peer):
        return next(record for record in self.records if record.peer is peer)

    def is_full_for(self, size):
        """"What comes on a feed": whether the throttle has a message of this size wait."""
        if self.bound == 0:
            return False
        return self.out + size > self.bound if size <= self.bound else self.out > self.bound

    # ---- its turn

    def turn(self, now):
        self.at_once, self.behind_queue = [], []
        self.accept()
        self.halves = [half for half in self.halves if half.turn(now)]
        self.step_records(now)
        self.sort_mail()
        self.lines += self.at_once + self.behind_queue

    def accept(self):
        for _ in range(min(len(self.port), MOST_ACCEPTS)):
            end, taken = self.port.pop(0), len(self.halves) < MOST_HALVES
            half = Half(self, end)
            if taken:
                self.halves.append(half)
            else:
                half.close("failed")

    def step_records(self, now):
        for record in self.records:
            if len(self.mail) < MOST_PARCELS and record.connects(now):
                record.open(self.open_socket(record.peer))
            for _ in range(MOST_STEPS):
                if len(self.mail) == MOST_PARCELS or record.step(now) != MOVED:
                    break

    def open_socket(self, peer):
        """The k-th socket to a peer is cut by the k-th `cut` line of the two."""
        cuts = self.run.cuts[self, peer]
        turn = self.openings[peer]
        self.openings[peer] += 1
        name = f"{self.name}-{peer.name}/{turn + 1}"
        socket = Socket(self, peer, name, cuts[turn] if turn < len(cuts) else None)
        self.opened.append(socket)
        return socket.opener

    def hand(self, record, parcel):
        """"What a step hands out"."""
        if isinstance(parcel, Letter) and parcel.message.kind in self.fast:
            self.dispatch(record.peer, parcel, "fast", self.at_once)
        else:
            self.mail.append((record.peer, parcel))

    def sort_mail(self):
        """The parcels are put into the queue, which dispatches the oldest letter of the greatest priority first."""
        queue = []
        for peer, parcel in self.mail:
            if parcel == DISCARD:
                self.out -= sum(letter.granted for of, letter in queue if of is peer)
                queue = [(of, letter) for of, letter in queue if of is not peer]
            elif parcel == REMOTE_RESET:
                self.behind_queue.append(f"{self.name} reset {peer.name}")
                self.tell("reset", peer.name)
            else:
                queue.append((peer, parcel))
        self.mail = []
        for peer, letter in sorted(queue, key=lambda it: -it[1].message.priority):
            self.dispatch(peer, letter, "queued", self.behind_queue)

    def dispatch(self, peer, letter, path, lines):
        """A line of docs/SCENARIOS.md, "What is printed"; what was granted comes back."""
        message = letter.message
        words = ("from", peer.name, str(message.priority), path, str(message.kind), *message.words())
        lines.append(f"{self.name} {' '.join(words)}")
        self.tell(*words)
        self.run.dispatched[peer, self] += 1
        self.out -= letter.granted


class Socket:
    """A socket: the end that connected, and the one that accepts."""

    def __init__(self, opener, acceptor, name, cut):
        self.opener, self.acceptor = End(opener, name, acceptor.address, cut), End(acceptor, name, opener.address)
        self.opener.source, self.acceptor.source = self.acceptor.text, self.opener.text

    def end_of(self, node):
        return self.opener if self.opener.node is node else self.acceptor

    def is_over(self):
        return self.opener.closed and self.acceptor.closed

    def flow(self, a, most):
        """At most so many bytes of a node's end become readable at the other one, which is told of a close."""
        end = self.end_of(a)
        to = self.acceptor if end is self.opener else self.opener
        if to.closed:
            return
        to.readable += min(most, end.put - to.readable)
        if end.closed:
            to.other_is_closed = True
            to.no_more_comes = to.readable == end.put


class Run:
    """A run of a scenario's lines ("A scenario's script")."""

    def __init__(self):
        self.nodes = {}  # by name, in the order of their lines
        self.links = []
        self.cuts = collections.defaultdict(list)
        self.sockets = collections.defaultdict(list)  # of two nodes, by number from 1
        self.live = collections.defaultdict(list)  # those of these that aren't closed at both ends
        self.now = 0
        self.told = []  # the lines of nodes of a trace
        self.dispatched = collections.Counter()
        self.rows = collections.Counter()

    def meets(self, kind, row, full):
        self.rows[kind, row, full] += 1

    # ---- before the first line

    def declare(self, lines):
        for words in lines:
            if words[0] == "node":
                self.add_node(words)
            elif words[0] == "link":
                a, b = self.nodes[words[1]], self.nodes[words[2]]
                self.links.append((a, b))
                a.records.append(Record(a, b, words[3]))
                b.records.append(Record(b, a, words[4]))
            elif words[0] == "cut":
                self.cuts[self.nodes[words[1]], self.nodes[words[2]]].append(int(words[3]))

    def add_node(self, words):
        options = dict(zip(words[4::2], words[5::2]))
        self.nodes[words[1]] = Node(self, len(self.nodes), words[1], words[2], Address.of(words[3]), options)

    # ---- the deeds

    def turn(self, a):
        a.turn(self.now)
        self.meet(a)
        self.now += 1

    def meet(self, a):
        """Sockets that a has opened get numbers and wait at their nodes; others are told which of a's are closed."""
        for socket in a.opened:
            peer = socket.acceptor.node
            self.sockets[pair(a, peer)].append(socket)
            self.live[pair(a, peer)].append(socket)
            peer.port.append(socket.acceptor)
        a.opened = []
        for record in a.records:
            self.flow_all(a, record.peer, 0)

    def flow_all(self, a, b, most):
        live = [socket for socket in self.live[pair(a, b)] if not socket.is_over()]
        self.live[pair(a, b)] = live
        for socket in live:
            socket.flow(a, most)

    def flow(self, a, b, number, most):
        sockets = self.sockets[pair(a, b)]
        if number <= len(sockets):
            sockets[number - 1].flow(a, most)

    def fault(self, a, b, number=None):
        sockets = self.sockets[pair(a, b)]
        number = len(sockets) if number is None else number
        if 1 <= number <= len(sockets):
            sockets[number - 1].end_of(a).fails = True

    def flow_everywhere(self):
        for a, b in self.links:
            self.flow_all(a, b, MOST)
            self.flow_all(b, a, MOST)

    # ---- the lines

    def play(self, text):
        """The lines of the trace."""
        lines = good_lines(text)
        self.declare(lines)
        return [line for words in lines for line in self.play_line(words)]

    def play_line(self, words):
        """Does what a line of a scenario says, and gives the lines that a trace has of it."""
        if words[0] != "settle":
            return self.play_step(words)
        return [line for _ in range(int(words[1])) for line in self.play_round()]

    def play_round(self):
        lines = self.play_step(["settle", "1"])
        return lines + [line for name in self.nodes for line in self.play_step(["turn", name])]

    def play_step(self, words):
        """A line of a trace's script: of a round its flows alone; the moment of a turn may be missing."""
        self.told = []
        moment = [str(self.now)] if words[0] == "turn" else []
        actor = self.nodes[words[1]] if words[0] in ACTS else None
        before, out = (actor.standings(), actor.out) if actor else ([], 0)
        self.do(words[0], words[1:])
        if actor:
            actor.tell_standings(before)
            actor.tell_throttle(out)
        return [" ".join([*words[: 2 if moment else None], *moment]), *self.told]

    def do(self, form, rest):
        if form == "settle":
            self.flow_everywhere()
        if form in ("settle", "link", "cut"):
            return
        a = self.nodes[rest[0]]
        if form == "node":
            if a.records:
                a.tell("node", a.facts())
            return
        if form == "turn":
            self.turn(a)
            return
        b, numbers = self.nodes[rest[1]], rest[2:]
        if form == "post":
            a.towards(b).post(Message.of(numbers))
        elif form == "dial":
            a.towards(b).dial()
        elif form == "down":
            a.towards(b).mark_down()
            self.meet(a)
        elif form == "flow" and numbers:
            self.flow(a, b, int(numbers[0]), int(numbers[1]))
        elif form == "flow":
            self.flow_all(a, b, MOST)
        elif form == "fault":
            self.fault(a, b, *(int(number) for number in numbers))
        else:
            sys.exit(f"model: no line of sim: {form} {' '.join(rest)}")

    # ---- what is told of a run

    def report(self):
        return "".join(f"{line}\n" for node in self.nodes.values() for line in node.lines)

    def left(self):
        """The posts of links that are up, less what the other node dispatched."""
        left = 0
        for a, b in self.links:
            sides = a.towards(b), b.towards(a)
            if not any(side.lossy or side.was_marked_down for side in sides):
                left += sum(side.posts - self.dispatched[side.node, side.peer] for side in sides)
        return left


def pair(a, b):
    return min(a.number, b.number), max(a.number, b.number)


def good_lines(text):
    """The words of each line that says something (docs/SCENARIOS.md, "Lines and words")."""
    lines = (line[:-1] if line.endswith("\r") else line for line in text.split("\n") if not line.startswith("#"))
    return [line.split() for line in lines if line.strip(" ")]


def played(file):
    """The run of a scenario, and its trace: comments stand in it as they are."""
    with open(file, encoding="latin-1", newline="\n") as scenario:
        text = scenario.read()
    run = Run()
    return run, run.play(text)


def outcome_of(file):
    """What is printed on standard output and on standard error, the status, and the trace without its comments."""
    run, trace = played(file)
    left = run.left()
    return run.report(), f"left: {left}\n" if left else "", LEFT if left else 0, "".join(f"{line}\n" for line in trace)


def keep_outcomes(folder, files):
    for file in files:
        for part, text in zip(("stdout", "stderr", "status", "trace"), outcome_of(file)):
            with open(os.path.join(folder, f"{os.path.basename(file)}.{part}"), "w", encoding="ascii") as out:
                out.write(text if part != "status" else f"{text}\n")


# ---- which rows are met


def name_of(row):
    kind, name, full = row
    return f"{kind} {name}" + {None: "", True: " full", False: " not_full"}[full]


def tell_rows(files):
    for file in files:
        for row, count in sorted(played(file)[0].rows.items(), key=lambda it: name_of(it[0])):
            print(f"{os.path.basename(file)}: {name_of(row)} {count}")


def named_rows(page):
    """Of each row of the page's table: the examples that it names, each with whether the answer is said to be full."""
    with open(page, encoding="utf-8") as text:
        table = text.read().partition("\n### Where each row is met\n")[2].partition("\n### ")[0]
    named = {}
    for kind, row, cell in re.findall(r"^\| (ident|reconnect), `?(\w+)`? \|[^|]*\|([^|]*)\|", table, re.M):
        examples = [part for part in cell.split(";") if not part.strip().startswith("trace")]
        found = re.findall(r"`(\w+)`(?: \((full|not full)\))?", ";".join(examples))
        named[kind, row] = [(name, {"": None, "full": True, "not full": False}[full]) for name, full in found]
    return named


def compare_table(page, folder):
    """Whether each example meets the rows that the table says, and no example a row for which the table names none."""
    files = sorted(name for name in os.listdir(folder) if name.endswith(".scenario"))
    met = {name[: -len(".scenario")]: played(os.path.join(folder, name))[0].rows for name in files}
    named = named_rows(page)
    said = []
    rows = [(ask, row) for ask, its in ROWS.items() for row in its]
    if list(named) != rows:
        said.append(f"the table's rows are {list(named)}, and the tables judge by {rows}")
    for (kind, row), examples in named.items():
        for name, full in examples:
            if not any((kind, row) == it[:2] and full in (None, it[2]) for it in met.get(name, ())):
                how = {None: "", True: " in full", False: " without the full mark"}[full]
                said.append(f"{kind} {row}: {name} doesn't meet it{how}")
        others = [name for name, its in met.items() if any((kind, row) == it[:2] for it in its)]
        if not examples and others:
            said.append(f"{kind} {row}: no example is named, and {' '.join(others)} meet it")
    for line in said:
        print(f"{page}: {line}")
    if not said:
        print(f"each example meets the rows that {page} says, {sum(map(len, named.values()))} in all")
    return not said


def main(words):
    if len(words) >= 2 and words[0] == "--into":
        keep_outcomes(words[1], words[2:])
        return 0
    if len(words) >= 1 and words[0] == "--rows":
        tell_rows(words[1:])
        return 0
    if len(words) == 2 and words[0] == "--trace":
        sys.stdout.write(outcome_of(words[1])[3])
        return 0
    if len(words) == 3 and words[0] == "--table":
        return 0 if compare_table(*words[1:]) else 1
    if len(words) != 1 or words[0].startswith("--"):
        sys.exit(__doc__)
    report, error, status, _ = outcome_of(words[0])
    sys.stdout.write(report)
    sys.stderr.write(error)
    return status


if __name__ == "__main__":
    sys.exit(main(sys.argv[1:]))
