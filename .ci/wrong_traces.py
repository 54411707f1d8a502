"""Changes each trace in each place, and shows which changes the two replays don't refuse.

usage: python3 .ci/wrong_traces.py [MOST]

The traces are those that the built program crates/run_trace/out/run_trace prints of each scenario of examples and of
examples/pictures, laid before tools/run_trace.py, and those stored in examples/traces, laid before tools/replay_trace.py.
The places are each word of each line, each line, and what is between two: a number is one more or one less, a digit of
bytes is turned (of long ones in each TURNED bytes), another word becomes one of its kind, a line is left out or doubled,
two neighbours of different kinds change places, and behind each line of a node a dispatch, a reset or a line of its throttle is made up. A line
that begins with # says nothing, and is left alone.

Of a trace with more than MOST places, 800 where it isn't said, so many are tried, spread evenly with a fixed seed. Each
change that is tried and goes through is counted under what HARMLESS says of such lines, which is why it makes another true
trace; one of which nothing is said is printed. Of what is tried at most one in ONE_IN may go through.
"""
import os, random, re, subprocess, sys
from concurrent.futures import ProcessPoolExecutor

TOP = os.path.dirname(os.path.dirname(os.path.abspath(__file__)))
sys.path.insert(0, os.path.join(TOP, "tools"))
import replay_trace
import run_trace

PROGRAM = "crates/run_trace/out/run_trace"
MOST, ONE_IN, SEED, TURNED, WORKERS, SHOWN = 800, 50, 1, 16, 2, 90
KINDS = [  # words of which one is put for another
    ("yes", "no"), ("fast", "queued"), ("ident", "reconnect"), ("full", "part"), ("planned", "used_up"),
    ("accept", "accept_over", "accept_again", "accept_replace", "accept_race", "close", "wait", "reset_pending", "resume"),
    ("no_session", "old_number", "lossy", "another_client", "another_server", "same_client", "settled", "peer_wins", "mine_wins", "goes_on"),
    ("old_connect", "never_written", "never_established"), ("reset", "accept_reset"), ("retry", "retry_global"), ("ended", "failed", "taken", "waited", "refused", "down"),
    ("read", "wrote"), ("opened", "closed"), ("accepted", "numbered", "acked"), ("got", "put"), ("judged", "after", "named"),
    ("journal", "trail"), ("feed", "spent"), ("half", "loose"), ("half_end", "loose_end"), ("message", "reset"), ("turn", "settle"),
    ("absent", "connecting", "ident_sent", "reconnect_sent", "ready", "standby"), ("post", "dial"), ("asked", "obeyed"),
    ("lossless_peer", "lossless_client", "lossy_client", "stateful_server", "stateless_server"), ("flow", "fault"), ("link", "cut"),
    ("mon", "mds", "osd", "client", "mgr"), ("throttle", "supports", "requires", "centers"), ("plan", "session", "state", "composed", "handed"),
]
CAUSES = ("posted", "dialled", "waited")  # of a connect
HARMLESS = {  # which changes of which lines may go through, and why
    "run": [
        ("settle .*: left out", "nothing was to flow in that round, so its turns alone do the same"),
        ("turn ", "nothing is done in that turn, and the line beside it does nothing"),
        ("cut ", "no socket comes that far, or the line may stand elsewhere"),
        ("flow ", "no more had been put, or the socket isn't there"),
        ("fault ", "no such socket, or one that is closed or failed already"),
        ("node ", "an option that nothing meets in this run, or an address that no frame tells"),
        ("link ", "a policy of which no row is met in this run, or a line that may stand elsewhere"),
        ("post ", "a message that is never written"),
    ],
    "records": [
        (". state ", "moments, of which nothing else in the trace tells"),
        (". opened ", "bytes that flowed and nobody read, and which of two sockets was opened first"),
        (". (spent|loose_end) socket ", "whether the last read of a closed end found nothing, or its end"),
        (". (journal acked .*: left out|handed .*: left out)", "the last step of all may not have been taken yet"),
        (". plan ", "a step that isn't taken, or a message that is never written"),
    ],
}


# ---- changes


def of_number(word, draw):
    step = draw.choice((1, -1)) if word != "0" else 1
    return str(int(word) + step)


def turned(word, at, draw):
    """A digit of bytes, another one."""
    other = draw.choice([digit for digit in "0123456789abcdef" if digit != word[at].lower()])
    return word[:at] + other + word[at + 1 :]


def words_for(line, at, names, draw):
    """What may stand for a word."""
    word = line.split(" ")[at]
    if re.fullmatch("0|[1-9][0-9]{0,19}", word):
        return [of_number(word, draw)]
    if word == "-":
        return ["00"]
    if re.fullmatch("([0-9a-fA-F]{2})+", word):
        places = range(0, len(word), 2 * TURNED)
        return [turned(word, min(len(word) - 1, start + draw.randrange(2 * TURNED)), draw) for start in places]
    if word in CAUSES and " opened " in line:
        return [other for other in CAUSES if other != word]
    for kind in KINDS:
        if word in kind:
            return [draw.choice([other for other in kind if other != word])]
    if word in names:
        return [other for other in names if other != word][:1] or ["zz"]
    return of_compound(word, draw)


def of_compound(word, draw):
    """A socket, an address, a list of kinds: one number of it is another, or its two ends change places."""
    numbers = list(re.finditer("[0-9]+", word))
    it = draw.choice(numbers) if numbers else None
    changed = [word[: it.start()] + of_number(str(int(it[0])), draw) + word[it.end() :]] if it else [word + "x"]
    ends = re.fullmatch(r"([^/>-]+)([->])([^/>-]+)(/[0-9]+)", word)
    return changed + ([f"{ends[3]}{ends[2]}{ends[1]}{ends[4]}"] if ends else [])


def kind_of(line):
    """What a line is, but for its numbers: two of one kind may change places in a true trace."""
    words = line.split()
    return words[:3] if line.startswith("  ") else words[:2]


def made_up(line, names):
    """A dispatch and a reset that didn't happen, and what a throttle hasn't out, to stand behind a line of a node."""
    node = line.split()[0]
    others = [name for name in names if name != node]
    if node not in names or not others:
        return []
    indent = "  " if line.startswith("  ") else ""
    if indent:
        return [f"  {node} from {others[0]} 127 queued 1 61 - -", f"  {node} reset {others[0]}", f"  {node} throttle 1"]
    return [f"{node} handed message 9 127 queued 1 61 - -", f"{node} handed reset"] if line.split()[1] == "handed" else []


def changes(lines, draw):
    """Each change of a trace: the place of its line, what is done, what stands there then, and for how many lines."""
    names = [line.split(" ")[1] for line in lines if line.startswith("node ")] or ["a", "b"]
    for at, line in enumerate(lines):
        if line.startswith("#"):
            continue
        words = line.split(" ")
        for place, word in enumerate(words):
            for other in words_for(line, place, names, draw) if word else []:
                yield at, f"{shortened(word)} is {shortened(other)}", [" ".join([*words[:place], other, *words[place + 1 :]])], 1
        yield at, "left out", [], 1
        yield at, "doubled", [line, line], 1
        if at + 1 < len(lines) and not lines[at + 1].startswith("#") and kind_of(line) != kind_of(lines[at + 1]):
            yield at, "behind the next", [lines[at + 1], line], 2
        for other in made_up(line, names):
            yield at, f"and then `{other.strip()}`", [line, other], 1


def shortened(word):
    return word if len(word) < 30 else f"{word[:12]}..{word[-12:]}"


# ---- the replays


def refuses(kind, text):
    """Whether the replay refuses a text; anything but its own two answers is an error of the replay."""
    try:
        if kind == "run":
            run_trace.check(run_trace.read_run(text))
        else:
            replay_trace.check(text)
    except (replay_trace.Wrong, replay_trace.NoTrace, run_trace.BadTrace):
        return True
    return False


def traces():
    """Each trace with its kind and name."""
    for folder in ("examples", "examples/pictures"):
        for name in sorted(os.listdir(os.path.join(TOP, folder))):
            if name.endswith(".scenario"):
                ran = subprocess.run([os.path.join(TOP, PROGRAM), os.path.join(TOP, folder, name)], capture_output=True, check=True)
                yield "run", f"{folder}/{name}", ran.stdout.decode()
    folder = "examples/traces"
    for name in sorted(os.listdir(os.path.join(TOP, folder))):
        if name.endswith(".stdout"):
            with open(os.path.join(TOP, folder, name), encoding="ascii") as file:
                yield "records", f"{folder}/{name}", file.read()


def tried(kind, name, text, most):
    """Of a trace: how many places there are, how many were tried, and of those that went through the line and what was done."""
    lines, draw = text.splitlines(), random.Random(f"{SEED}/{name}")
    every = list(changes(lines, draw))
    chosen = every if len(every) <= most else [every[int((k + draw.random()) * len(every) / most)] for k in range(most)]
    through = [] if not refuses(kind, text) else [f"{name}: the trace itself is refused"]
    for at, what, those, count in chosen:
        if not refuses(kind, "".join(f"{line}\n" for line in [*lines[:at], *those, *lines[at + count :]])):
            through.append(f"{lines[at].strip()[:SHOWN]}: {what}")
    return len(every), len(chosen), through


def told(kind, name, through):
    """Counts what went through by why it may; what may not is printed."""
    reasons = []
    for said in through:
        why = next((why for form, why in HARMLESS[kind] if re.match(form, said)), None)
        reasons.append(why)
        if why is None or "--all" in sys.argv:
            print(f"{name}: {said}: goes through{'' if why else ', and nothing says why it may'}")
    return reasons


def main():
    most = next((int(word) for word in sys.argv[1:] if word.isdecimal()), MOST)
    if not os.path.exists(os.path.join(TOP, PROGRAM)):
        sys.exit(f"{PROGRAM} isn't built")
    given, good = sorted(traces(), key=lambda it: -len(it[2])), True
    with ProcessPoolExecutor(WORKERS) as pool:
        done = list(zip(given, pool.map(tried, *zip(*[(*it, most) for it in given]))))
    for kind in HARMLESS:
        its = [(name, *found) for (of, name, _), found in done if of == kind]
        reasons = [why for name, _, _, through in its for why in told(kind, name, through)]
        places, count = sum(it[1] for it in its), sum(it[2] for it in its)
        good = good and None not in reasons and len(reasons) * ONE_IN <= count
        print(f"{kind}: of {places} changes of {len(its)} traces {count} were tried, and {len(reasons)} went through")
        for why in sorted(set(reasons) - {None}):
            print(f"  {reasons.count(why)}: {why}")
    sys.exit(0 if good else 1)


if __name__ == "__main__":
    main()
