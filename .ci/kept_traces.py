"""Traces runs on threads as an operator does, by `./msgr2 trace --run`, and compares each with what its scenario posts: each post stands
in the trace before its dispatch, what is dispatched is the report that the rules give, and tools/draw and tools/why take the text.

What threads do is another thing each time, and seldom all that the tables have. So the runs of `sim` in examples/, as the model plays
them, are told as such a run would have been kept, without what no journal has: causes, bytes, moments, and which node was first.
tools/kept_trace must find each entry, cause and row again, and an order. And where an entry is taken out of what was kept, or a byte
would be read before it was written, that is told.
"""
import collections
import importlib.machinery
import importlib.util
import os
import re
import subprocess
import sys
import tempfile

sys.dont_write_bytecode = True
TOP = os.path.dirname(os.path.dirname(os.path.abspath(__file__)))
sys.path.insert(0, os.path.join(TOP, "tools"))
import model
import run_trace
from fates import DISPATCHED, WAITS, Fates
from kept import REFUSED
from replay_trace import flags, word_of
from run_trace import TAKES, UNTOLD_OF_THREADS

SECONDS = 300  # of one command, which may build the program first
FOLDERS = "examples", "examples/pictures"


def module(name, file):
    """A program as a module."""
    loader = importlib.machinery.SourceFileLoader(name, os.path.join(TOP, file))
    made = importlib.util.module_from_spec(importlib.util.spec_from_loader(name, loader))
    loader.exec_module(made)
    return made


kept_trace = module("kept_trace", "tools/kept_trace")
threads = module("threads", ".ci/threads.py")


def ran(*words):
    got = subprocess.run([os.path.join(TOP, words[0]), *words[1:]], capture_output=True, text=True, timeout=SECONDS)
    return got.returncode, got.stdout, got.stderr


# ---- runs on threads


def dispatches(run):
    return [" ".join([event.node, "from", event.peer, *event.words]) for row in run.rows for event in row.events if event.what == "from"]


def of_threads(lines, report, left, room):
    """What is wrong with the trace of a run of this scenario."""
    file, kept = os.path.join(room, "case.scenario"), os.path.join(room, "case.trace")
    with open(file, "w", encoding="ascii") as out:
        out.write("\n".join(lines) + "\n")
    status, text, said = ran("msgr2", "trace", "--run", file)
    if status:
        yield f"trace --run: status {status}: {said}"
        return
    run = run_trace.read_run(text)
    fates = Fates(run)
    told = dispatches(run)
    if sorted(told) != sorted(report.splitlines()):
        yield f"{len(told)} dispatches, and {len(report.splitlines())} expected, or others"
    for pair, side in fates.sides.items():
        wanted = [line for line in lines if line.split()[:1] == ["post"] and tuple(line.split()[1:3]) == pair]
        if [" ".join(post.row.words) for post in side.posts] != wanted:
            yield f"other posts of {pair[0]} to {pair[1]} than those of the file"
    if sum(len(post.dispatched) for post in fates.posts) != len(told):
        yield "a dispatch without its post"
    for post in fates.posts:
        kind, why = fates.fate(post)
        if post.dispatched and (kind != DISPATCHED or post.row.line > post.dispatched[0].line):
            yield f"the post of line {post.row.line} stands behind its dispatch"
    waiting = sum(fates.fate(post)[0] == WAITS for post in fates.posts)
    if waiting != left:
        yield f"{waiting} posts are told to wait, and {left} expected"
    with open(kept, "w", encoding="ascii") as out:
        out.write(text)
    for words in (["tools/draw"], ["tools/draw", "--handshakes", "--html"], ["tools/why", "--all"]):
        status, made, said = ran(*words, kept)
        if status or said or not made:
            yield f"{' '.join(words)}: status {status}: {said}"
    yield from objections(text)


def objections(text):
    """Whether reading objects to a trace in which a byte is read before it is written, or something is told that nobody can tell."""
    rows = re.split(r"^(?=turn )", text, flags=re.M)
    first = next((at for at, row in enumerate(rows) if re.search(r"^  \w+ (trail|journal \w+) read ", row, re.M)), None)
    changes = [("^threads$", "# threads"), ("^threads$", "threads\nsettle 1")]
    if first is not None:
        changes += [(r"(?s)\A.*\Z", "".join([rows[0], rows[first], *rows[1:first], *rows[first + 1 :]])), ("no - ([0-9])", r"no 7 \1")]
    for old, new in changes:
        try:
            run_trace.read_run(re.sub(old, lambda _: _.expand(new) if "\\1" in new else new, text, count=1, flags=re.M))
            yield f"nothing is said against {new[:20]!r}"
        except run_trace.BadTrace:
            pass


# ---- runs of the model, told as they would be kept


class Played:
    """A run of the model with its trace, and with the number of each message that was dispatched."""

    def __init__(self, file):
        self.numbers, dispatch = [], model.Node.dispatch

        def noted(node, peer, letter, path, lines):
            self.numbers.append(letter.number)
            dispatch(node, peer, letter, path, lines)

        model.Node.dispatch = noted
        try:
            self.run, trace = model.played(file)
        finally:
            model.Node.dispatch = dispatch
        self.lines = [line for line in trace if not line.startswith("#")]
        self.nodes = list(self.run.nodes.values())
        self.place = {node.name: k for k, node in enumerate(self.nodes)}
        self.journals, self.trails, self.after, self.moves, self.ends = (collections.defaultdict(list) for _ in range(5))
        self.put, self.got, self.calls = collections.defaultdict(bytearray), collections.Counter(), []
        numbers = iter(self.numbers)
        for line in self.lines:
            if line.startswith("  "):
                self.take(*line[2:].split(" "), numbers=numbers)

    def take(self, name, what, *words, numbers):
        k = self.place[name]
        if what in ("from", "reset"):
            path = words[2] if what == "from" else "queued"
            said = f"message {next(numbers)} {' '.join(words[1:])}" if what == "from" else "reset"
            self.calls.append(f"{k}.0/{path}-{self.place[words[0]]} handed {said}")
        elif what == "journal":
            entry = list(words[1:])
            self.journals[k, self.place[words[0]]].append(entry)
            if entry[0] == "judged":
                self.after[k, entry[2]].append((len(self.trails[k, entry[2]]), entry))
            self.move(k, entry)
        elif what == "trail":
            self.trails[k, words[1]] += [] if words[0] == "accepted" else [list(words)]
            self.trails[k, words[1]]  # it is there
            self.move(k, words)

    def move(self, k, entry):
        if entry[0] in ("read", "wrote"):
            self.moves[k, entry[1]].append((entry[0], entry[2]))
            self.got[k, entry[1]] += int(entry[2]) if entry[0] == "read" else 0
            self.put[k, entry[1]] += bytes.fromhex(entry[3].strip("-")) if entry[0] == "wrote" else b""
        elif entry[0] == "closed":
            self.ends[k, entry[1]].append(entry[2])

    # ---- the text

    def named(self, words):
        """With the names that sockets of the system have."""
        return " ".join(self.name(word) if re.fullmatch(r"\w+-\w+/\d+", word) else word for word in words)

    def name(self, socket):
        opener, acceptor, turn = re.fullmatch(r"(\w+)-(\w+)/(\d+)", socket).groups()
        return f"{self.run.nodes[opener].address.place()}>{self.run.nodes[acceptor].address.place()}/{turn}"

    def cut_short(self, entry):
        """An entry as it is kept: without bytes and causes."""
        return entry[: {"opened": 2, "closed": 2, "wrote": 3}.get(entry[0])]

    def trail(self, what, k, socket):
        yield f"{what} named {self.name(socket)} {self.nodes[k].entity}"
        for entry in self.trails[k, socket]:
            yield f"{what} {self.named(self.cut_short(entry))}"
        for _, entry in self.after[k, socket]:
            yield f"{what} judged {self.name(socket)} {' '.join(entry[3:-1])}"
        for count, _ in self.after[k, socket]:
            yield f"{what} after {self.name(socket)} {count}"

    def end(self, what, k, socket):
        name, causes = self.name(socket), self.ends[k, socket]
        other = next(self.place[node] for node in re.split("[-/]", socket)[:2] if self.place[node] != k)
        yield f"{what} socket {name} {flags(causes, False, False, causes == ['ended'])}"
        for move, count in self.moves[k, socket]:
            yield f"{what} {move} {name} {count}"
        yield f"{what} got {name} {word_of(self.put[other, socket][: self.got[k, socket]])}"
        yield f"{what} put {name} {word_of(self.put[k, socket])}"
        yield f"faults {name} {int(causes == ['failed'] or what == 'loose_end' and causes == ['refused'])}"

    def record(self, k, record):
        p = record.peer.number
        journal, feed = self.journals[k, p], record.feed
        yield f"address {self.nodes[k].address} {flags(record.lossy, record.server, record.standby, record.resetcheck)}"
        yield f"node {self.nodes[k].facts()}"
        for line in self.lines:
            words = line.split(" ")
            if words[0] in ("post", "dial", "down") and words[1:3] == [self.nodes[k].name, record.peer.name]:
                yield f"plan {' '.join([words[0], *words[3:]])}"
        yield from (f"journal {self.named(self.cut_short(entry))}" for entry in journal)
        for entry in journal:
            if entry[0] == "judged" and entry[9] in TAKES:
                yield from self.trail("trail", k, entry[2])
        yield from self.end("feed", k, feed.name) if feed else ()
        for entry in journal:
            if entry[0] == "closed":
                yield from self.end("spent", k, entry[1])
        numbers = (record.client_cookie, record.server_cookie, record.peer_global, record.connect)
        yield f"session {record.phase} {' '.join(map(str, numbers))} {flags(record.lost_in_ready)}"
        yield f"state no no no {record.next_dial} 0 {self.run.now}"
        yield f"composed {word_of(feed.text[feed.put :]) if feed else '-'}"

    def kept(self):
        loose = {}
        for k, node in enumerate(self.nodes):
            yield f"{k} node yes 1"
            for record in node.records:
                yield f"{k}.0 has {record.peer.number}"
                yield from (f"{k}-{record.peer.number} {line}" for line in self.record(k, record))
            loose[k] = [socket for at, socket in self.trails if at == k and not any(entry[9] in TAKES for _, entry in self.after[k, socket])]
            yield f"{k} halves {len(loose[k])}"
        yield from self.calls
        for k in reversed(loose):
            for socket in loose[k]:
                yield from (f"loose {line}" for line in [*self.trail("loose", k, socket), *self.end("loose_end", k, socket)])
        yield "run start 0"
        yield f"run stop {self.run.now}"
        yield f"run left {self.run.left()}"

    def script(self):
        """Its lines that a scenario of threads may have."""
        return [line for line in self.lines if line.split(" ")[0] in ("node", "link", "cut", "post", "dial", "down")]


def by_chain(lines):
    """What is kept in one order, of a trace: the lines of each record, half, and key of dispatches; and where each record stands in the end."""
    chains, stands = collections.defaultdict(list), {}
    for line in lines:
        node, what, *words = line[2:].split(" ") if line.startswith("  ") else ("", "", "")
        if what == "journal":
            chains[node, words[0]].append(line)
        elif what == "trail":
            chains[node, words[1]].append(line)
        elif what in ("from", "reset"):
            chains[node, what, *words[:3]].append(line)
        elif what == "session":
            stands[node, words[0]] = [word for at, word in enumerate(words[1:]) if at not in UNTOLD_OF_THREADS]
    return chains, stands


def of_model(file):
    """What is wrong with the trace that is made of what would be kept of this run."""
    played = Played(file)
    made = list(kept_trace.trace(played.script(), "".join(f"{line}\n" for line in played.kept())))
    Fates(run_trace.read_run("".join(f"{line}\n" for line in made)))
    (due, stood), (chains, stands) = by_chain(played.lines), by_chain(made)
    for key in due.keys() | chains.keys():
        for line, other in zip([*due[key], "nothing"], [*chains[key], "nothing"]):
            if line != other:
                yield f"`{other.strip()[:100]}` stands where the run has `{line.strip()[:100]}`"
                break
    if stands != stood:
        yield "a record stands otherwise behind the last line"


def without(file, what):
    """What is said of that run with the first such entry taken out of what is kept; it must be something."""
    played = Played(file)
    lines = list(played.kept())
    at = next((at for at, line in enumerate(lines) if line.split(" ")[1:3] == ["journal", what]), None)
    if at is None:
        return
    try:
        list(kept_trace.trace(played.script(), "".join(f"{line}\n" for line in lines[:at] + lines[at + 1 :])))
        yield f"nothing is said where `{lines[at][:60]}` is left out"
    except REFUSED:
        pass


def main():
    cases = [(threads.three_nodes, 0), (threads.a_post_and_a_mark, 0), (threads.a_node_is_off, 2)]
    cases = [(case.__name__, case()[0], case()[2] or "", left) for case, left in cases]
    for case in (lambda: threads.at_random(1), lambda: threads.at_random(3)):
        lines, _, report, _ = case()
        cases.append(("at_random", lines, report, 0))
    said, files = [], []
    with tempfile.TemporaryDirectory() as room:
        for name, lines, report, left in cases:
            said += [f"{name}: {it}" for it in of_threads(lines, report, left, room)]
    for folder in FOLDERS:
        files += [os.path.join(TOP, folder, name) for name in sorted(os.listdir(os.path.join(TOP, folder))) if name.endswith(".scenario")]
    for file in files:
        try:
            wrong = [*of_model(file), *(it for what in ("wrote", "accepted", "asked") for it in without(file, what))]
        except (*REFUSED, run_trace.BadTrace) as why:
            wrong = [f"{type(why).__name__}: {why}"]
        said += [f"{os.path.relpath(file, TOP)}: {it}" for it in wrong]
    for line in said:
        print(f".ci/kept_traces.py: {line}")
    print(f"traces of runs on threads: {len(cases)}, of what would be kept of runs of sim: {len(files)}, not as expected: {len(said)}")
    return bool(said)


if __name__ == "__main__":
    sys.exit(main())
