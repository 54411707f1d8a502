"""Holds what is kept of runs on threads against the definition of a kept run. A plain program: it knows docs/ and what stands in the
head of tools/kept_run/main.txt, and nothing of the crates.

usage: checks/kept_run.py PROGRAM [RUNS [SEED]]

Each scenario is run over the loopback and over sockets between threads. Of each run this must hold:

  1  each record is of the scenario's link, and its plan is the scenario's lines for it, in order;
  2  a node that is off has done nothing;
  3  each other node has as many threads as the scenario says, each with a port of the fabric;
  4  the sockets that a node's ports made, with those of its halves at its door and on their way, are those of its ends, each once;
  5  the records of a node have missed no more connects than its ports;
  6  a socket that a `cut` line cuts has moved no more bytes than that at the end that opened it;
  7  a half that no record took was closed only where its end failed or had ended, an ask of it was judged `close`, or what it got
     is what no half may get;
  8  what each end got is the first of what the other end put, where that is a node's;
  9  what each record and each half did follows from docs/PROTOCOL.md, entry by entry, from its plan, what it read and when its ends
     failed: what it wrote, what it answered, what it handed on, and where its session stands. A replay tells (tools/sides.py);
 10  what the dispatchers were called with is what the records handed on, of each peer, priority and path in order, each once; and
     as many posts are left as the call says. A node's log has the calls of its dispatchers of fast kinds, thread by thread, and then,
     of each thread in order, what that thread has handed on, and nothing else;
 11  the moments are in order: no dial is due more than a second behind the last look at the clock; and where posts are left all is
     at rest, and nothing has happened for as long as the limit.

Then each text is changed in one place at random, again and again: a line is left out, stands twice, or has another digit. Each of these
must be refused but where no rule decides: a moment, a count of a port, a last acknowledgement that isn't taken yet.

The status is 0 exactly where all this holds; KEEP_WRONG names a folder for the scenario and the text of each run of which it doesn't."""
import collections
import importlib.util
import os
import random
import subprocess
import sys
import tempfile

sys.dont_write_bytecode = True
TOP = os.path.dirname(os.path.dirname(os.path.abspath(__file__)))
sys.path.insert(0, os.path.join(TOP, "tools"))
import wire
from kept import REFUSED, Kept, replay_link, scenario
from replay_trace import Wrong, must
from sides import POLICIES, REMOTE_RESET

SECONDS = 120
USUAL_LIMIT = 10000  # milliseconds, where the scenario has no line
FABRICS = "loopback", "memory"
CHANGES = 40  # of the text of each run


def of_file(name, file):
    spec = importlib.util.spec_from_file_location(name, os.path.join(TOP, file))
    module = importlib.util.module_from_spec(spec)
    spec.loader.exec_module(module)
    return module


# ---- what must hold


def check_plans(kept, nodes, links):
    linked = {(a, b): policy for a, b, policy, _ in links} | {(b, a): policy for a, b, _, policy in links}
    must(set(kept.home) == set(linked), "the records aren't those of the links")
    for (k, p), policy in linked.items():
        given = kept.records[k, p]
        lossy, server, standby, resetcheck = POLICIES[policy]
        must(given.policy == (lossy, server, standby, resetcheck), f"{k}-{p}: another policy")
        must(kept.heads[k, p, "address"][0] == str(nodes[k].address), f"{k}-{p}: another address")
        wanted = [["post", step[1], step[2], *step[3:]] if step[0] == "post" else [step[0]] for step in nodes[k].plans[p]]
        must(given.plan == wanted, f"{k}-{p}: the plan isn't the scenario's lines")


def check_nodes(kept, nodes):
    must(set(kept.started) == set(range(len(nodes))), "the nodes aren't the scenario's")
    for k, node in enumerate(nodes):
        threads = [head for head in kept.ports if head.split(".")[0] == str(k)]
        must(kept.started[k] == node.started and len(threads) == node.centers == kept.centers[k], f"node {k}: other threads")
        must(all(kept.ports[head] == node.started for head in threads), f"node {k}: other ports")
        if node.started:
            continue
        mine = [given for (at, _), given in kept.records.items() if at == k]
        calls = [calls for (at, _), calls in kept.calls.items() if at == k]
        must(not any(given.journal or given.flags for given in mine) and not any(calls) and not kept.halves[k], f"node {k} is off and did something")


def check_sockets(kept, nodes):
    """Points 4 and 5."""
    for k, node in enumerate(nodes):
        mine = [head for head in kept.ports if head.split(".")[0] == str(k)]
        made, inner = ([socket for head in mine for socket in sockets[head]] for sockets in (kept.made, kept.inner))
        of_records = [socket for (at, _), given in kept.records.items() if at == k for socket in given.flags]
        halves = kept.loose_of(k)
        must(sorted(inner) == sorted(of_records + halves), f"node {k}: the sockets of its ports aren't those of its ends, each once")
        must(len(set(inner)) == len(inner) and len(set(made)) == len(made), f"node {k}: a socket stands twice")
        must(set(inner) - set(halves) <= set(made) <= set(inner), f"node {k}: its threads' sockets aren't those of the fabric's ports")
        if node.started:
            missed = sum(given.moments[1] for (at, _), given in kept.records.items() if at == k)
            must(missed <= sum(int(kept.counts[head][0]) for head in mine), f"node {k}: more connects were missed than failed")


def check_moments(kept):
    must(kept.run["start"] <= kept.run["stop"], "the run stops before it starts")
    for (k, p), given in kept.records.items():
        next_dial, _, last = given.moments
        must(next_dial <= kept.run["stop"] + 1000 and last <= kept.run["stop"], f"{k}-{p}: a moment behind the last")


def moved_at(given, socket):
    return len(given.got.get(socket, b"")) + len(given.put.get(socket, b""))


def check_logs(kept, nodes, sides):
    """Point 10."""
    left = 0
    for (a, b, policy, _), two in sides:
        for k, p in ((a, b), (b, a)):
            calls = kept.calls.get((k, p), [])
            handed = two[k].handed
            resets = sum(parcel == REMOTE_RESET for parcel in handed)
            must(sum(words[0] == "reset" for _, words in calls) == resets, f"{k}-{p}: other resets were dispatched")
            by_key = collections.defaultdict(lambda: ([], []))
            for parcel in handed:
                if parcel != REMOTE_RESET:
                    message = parcel.message
                    path = "fast" if message.kind in nodes[k].fast else "queued"
                    by_key[str(message.priority), path][0].append([str(parcel.number), str(message.kind), *message.words()])
            for path, words in calls:
                if words[0] == "message":
                    must(words[3] == path, f"{k}-{p}: a message on the wrong path")
                    by_key[words[2], path][1].append([words[1], *words[4:]])
            for key, (given, called) in by_key.items():
                must(given[: len(called)] == called, f"{k}-{p}, {key}: what was dispatched isn't what was handed on, in order")
                must(len(called) == len(given), f"{k}-{p}, {key}: {len(given) - len(called)} of what was handed on weren't dispatched")
        lossless = not policy.startswith("lossy") and not policy.startswith("stateless")
        if lossless and not any(entry[0] == "down" for k in (a, b) for entry in two[k].given.journal):
            for k, p in ((a, b), (b, a)):
                posts = sum(step[0] == "post" for step in nodes[k].plans[p])
                left += posts - sum(words[0] == "message" for _, words in kept.calls.get((p, k), []))
    must(kept.run.get("left") == left, f"{left} posts are left, and the call says {kept.run.get('left')}")


def check_node_logs(kept):
    """Point 10, of a node as a whole."""
    for k, count in kept.centers.items():
        threads = [f"{k}.{j}" for j in range(count)]
        fast = [call for thread in threads for call in kept.logs[thread, "fast"]]
        log = kept.node_logs[k]
        must(log[: len(fast)] == fast, f"node {k}: its log begins with other calls than those of fast kinds")
        behind = log[len(fast) :]
        must(len(behind) == sum(len(kept.logs[thread, "queued"]) for thread in threads), f"node {k}: its log has more, or less")
        for thread in threads:
            of_thread = [call for call in behind if kept.home.get((k, call[0])) == thread]
            must(of_thread == kept.logs[thread, "queued"], f"node {k}: its log has other calls than {thread} has handed on")


def check_cuts(kept, nodes):
    """Point 6: the n-th `cut` of a node towards another is of the n-th socket that it opens to it."""
    for k, node in enumerate(nodes):
        for p in {peer for peer, _ in node.cuts}:
            if (k, p) not in kept.home:
                continue
            given = kept.records[k, p]
            opened = [entry[1] for entry in given.journal if entry[0] == "opened"]
            for socket, most in zip(opened, [most for peer, most in node.cuts if peer == p]):
                must(moved_at(given, socket) <= most, f"{k}-{p}: {socket} was cut at {most} and moved more")


def check_stalled(kept, nodes, limit):
    """Where posts are left: all is at rest, and nothing happened for as long as the limit."""
    last = max([kept.run["start"]] + [given.moments[2] for given in kept.records.values()])
    must(kept.run["stop"] - last >= limit, f"the run stopped {kept.run['stop'] - last} ms behind its last entry")
    for (k, p), given in kept.records.items():
        taken = sum(entry[0] in ("post", "dial") or entry == ["down", "planned"] for entry in given.journal)
        must(taken == len(given.plan) or not nodes[k].started, f"{k}-{p}: its plan isn't done")
        for socket, (closed, dry, _, _) in given.flags.items():
            there = kept.records[p, k].flags.get(socket)
            mine = socket in [entry[1] for entry in given.journal if entry[0] == "opened"]
            must(closed or dry, f"{k}-{p}: {socket} may be read")
            if not closed and mine and there is not None:
                for got, put in ((given.got, kept.records[p, k].put), (kept.records[p, k].got, given.put)):
                    must(not there[0] and got.get(socket) == put.get(socket), f"{k}-{p}: {socket} isn't at rest")
    for k in range(len(nodes)):
        for socket in kept.loose_of(k):
            words = next(words for _, what, words in kept.loose[socket] if what == "loose_end" and words[0] == "socket")
            must("yes" in words[2:5], f"node {k}: the half on {socket} may go on")


def check(text, lines):
    kept = Kept(text)
    nodes, links = scenario(lines)
    must("left" in kept.run, f"the run has ended otherwise: {kept.run.get('ended')}")
    check_plans(kept, nodes, links)
    check_nodes(kept, nodes)
    check_sockets(kept, nodes)
    check_moments(kept)
    check_cuts(kept, nodes)
    sides = [(link, replay_link(kept, nodes, link[0], link[1], link[2:])) for link in links]
    check_logs(kept, nodes, sides)
    check_node_logs(kept)
    if kept.run["left"] > 0:
        check_stalled(kept, nodes, next((int(line.split()[1]) for line in lines if line.startswith("limit ")), USUAL_LIMIT))
    return kept


# ---- texts with one place changed


def changed(draw, text):
    """The text with a line left out, doubled, or with another digit; None where that may be so as well."""
    lines = text.splitlines()
    at = draw.randrange(len(lines))
    head, what, *words = lines[at].split(" ")
    how = draw.choice(("left out", "doubled", "digit"))
    if how == "doubled":
        lines.insert(at, lines[at])
    elif head == "run" and what != "left" or what == "journal" and words[0] == "acked":
        return None
    elif how == "left out":
        if what in ("faults", "made"):  # a half that was closed at the door was never a thread's
            return None
        del lines[at]
    else:
        digits = [place for place, letter in enumerate(lines[at]) if letter.isdigit() and place > len(head) + len(what) + 1]
        if not digits or what in ("state", "counts", "faults") or what == "node" and "-" in head:
            return None
        place = draw.choice(digits)
        lines[at] = f"{lines[at][:place]}{(int(lines[at][place]) + draw.randrange(1, 10)) % 10}{lines[at][place + 1 :]}"
    return "\n".join(lines)


def passed(draw, text, lines):
    """How many changed texts were tried, and the changed lines of those that pass."""
    tried, through = 0, []
    for _ in range(CHANGES):
        other = changed(draw, text)
        if other is None:
            continue
        tried += 1
        try:
            check(other, lines)
        except REFUSED:
            continue
        was, now = text.splitlines(), other.splitlines()
        at = next((at for at, (one, two) in enumerate(zip(was, now)) if one != two), min(len(was), len(now)) - 1)
        through.append(f"`{now[at][:90]}` where `{was[at][:90]}` stood")
    return tried, through


# ---- runs


def run(program, over, lines):
    with tempfile.TemporaryDirectory() as folder:
        path = os.path.join(folder, "case.scenario")
        with open(path, "w", encoding="utf-8") as file:
            file.write("\n".join(lines) + "\n")
        got = subprocess.run([program, over, path], capture_output=True, text=True, timeout=SECONDS)
    must(got.returncode == 0, f"the program ends with {got.returncode}: {got.stderr.strip()}")
    return got.stdout


def main(words):
    program = words[0]
    count, seed = int(words[1]) if len(words) > 1 else 6, int(words[2]) if len(words) > 2 else 0
    threads = of_file("threads", ".ci/threads.py")
    makers = [threads.three_nodes, threads.nothing_to_do, threads.a_post_and_a_mark, threads.a_node_is_off]
    cases = [(it.__name__, it()[0]) for it in makers] + [(f"at_random {it}", threads.at_random(it)[0]) for it in range(seed, seed + count)]
    entries = wrong = tried = through = 0
    draw = random.Random(seed)
    for name, lines in cases:
        for over in FABRICS:
            text = ""
            try:
                text = run(program, over, lines)
                kept = check(text, lines)
                entries += sum(len(given.journal) for given in kept.records.values())
                of_this, let_through = passed(draw, text, lines)
                tried, through = tried + of_this, through + len(let_through)
                for line in let_through:
                    print(f"checks/kept_run.py: {name}, {over}: a kept run still with {line}")
            except (Wrong, wire.BadStream) as why:
                wrong += 1
                print(f"checks/kept_run.py: {name}, {over}: {why}")
                folder = os.environ.get("KEEP_WRONG")
                if folder:
                    for end, what in (("scenario", "\n".join(lines)), ("kept", text)):
                        with open(os.path.join(folder, f"{name.replace(' ', '_')}.{over}.{end}"), "w", encoding="utf-8") as file:
                            file.write(what + "\n")
    print(f"runs: {len(FABRICS) * len(cases)}, entries replayed: {entries}, that aren't kept runs: {wrong}; changed texts: {tried}, not refused: {through}")
    return bool(wrong or through)


if __name__ == "__main__":
    if len(sys.argv) < 2:
        sys.exit(__doc__)
    sys.exit(main(sys.argv[1:]))
