"""Draws each scenario of examples/pictures and compares the picture with the one that stands beside it.

The trace of a scenario's run is what the built program crates/run_trace/out/run_trace prints. The replay is laid beside
each trace, those of the scenarios of examples too: each line has to be the one that docs/PROTOCOL.md makes of its script;
and tools/fates.py has to tell of so many posts that they wait as `sim` says are left. NAME.words beside NAME.scenario has the
words with which its picture is drawn, and NAME.scenario.stderr what `sim` says on standard error. No two texts of a picture may lie on each other, whichever moments are left out, and
the page of tools/draw --html has the same picture and the states that the rules give. Traces with one thing changed must be
objected to: bad lines by tools/draw with their number and why, a trace whose lines are all well formed by the replay, and another
picture by the comparison.
"""
import html, os, re, subprocess, sys, tempfile

TOP = os.path.dirname(os.path.dirname(os.path.abspath(__file__)))
sys.path.insert(0, os.path.join(TOP, "tools"))
import run_trace
from fates import WAITS, Fates

PICTURES = "examples/pictures"
PAGE = "README.md"  # which shows them
EXAMPLES = "examples"
PROGRAM = "crates/run_trace/out/run_trace"
SAMPLE = "crossing"
LETTER, SIZES = 0.58, {"caption": 12.5, "node": 14, "script": 10.5, "cause": 10.5}  # how wide a letter is, by the size of its text; sizes of tools/draw
BAD = [  # what is changed in the sample, at its first place; and what is said of which line
    (r"^settle 1$", "walk a", 13, "`walk` begins no line"),
    (r"^turn b 1$", "turn b 2", 18, "the moment of this turn is 1"),
    (r"^turn b 1$", "turn z 1", 18, "no node z above"),
    (r"^link .*$", "# no link", 7, "no link of a and b above"),
    (r"^post a b 1 127 61", "post a b 1 127 6", 7, "`6` is no bytes"),
    (r"opened a-b/1(?= posted$)", "opened a-b/2", 15, "a-b/2 isn't the next socket that a opens to b"),
    (r"(?<=opened a-b/1 )posted$", "written", 15, "`written` is no cause"),
    (r"  a journal b wrote a-b/1 26", "  b journal a wrote a-b/1 26", 16, "b does something, and it isn't its turn or its line"),
    (r"wrote a-b/1 26", "wrote a-b/1 27", 16, "27 bytes were written, and 26 stand here"),
    (r"wrote a-b/1 26 63", "wrote a-b/1 26 64", 16, "what a wrote to a-b/1 isn't msgr2: a stream begins with no banner"),
    (r"read a-b/1 26$", "read a-b/1 99", 30, "more is read than was written"),
    (r"accepted a-b/1$", "accepted a-b/1 1", 19, "`accepted` has another number of words"),
    (r"(?<= accept_race )peer_wins$", "goes_on", 71, "`goes_on` is no row by which an ident is judged"),
    (r"(?<= )asked ident", "asks ident", 55, "`asks` is no entry"),
    (r"  b from a", "   b from a", 94, "words have one space between them, and a node's line begins with two"),
]
UNTRUE = [  # what is changed in the sample so that the lines are well formed, and the replay must object
    (r"(?<=opened a-b/1 )posted$", "waited"),
    (r"^(  a session b connecting .*)$", r"\1\n  a throttle 1"),
    (r"accept_race peer_wins$", "accept_again same_client"),
    (r"(?<= accept_race )peer_wins$", "settled"),
    (r"^  b trail read a-b/1 227\n", ""),
    (r"^  a journal b acked 1\n", "  a journal b acked 2\n"),
    (r"^  a from b 127 queued 1 62", "  a from b 127 queued 1 63"),
    (r"^  a node 4 0 1 ", "  a node 4 0 2 "),
    (r"(?<=^  a session b )connecting 0 ", "connecting 1 "),
    (r"(?<=^  a session b absent 0 0 0 0 no 0 0 0 0 0 )1$", "2"),
]


def ran(words):
    """The status, standard output and standard error of a program."""
    done = subprocess.run(words, capture_output=True)
    return done.returncode, done.stdout, done.stderr.decode()


def traced(file):
    return ran([os.path.join(TOP, PROGRAM), file])


def drawn(trace, room, words=()):
    """What tools/draw makes of a trace, with these words before it."""
    file = os.path.join(room, "a.trace")
    with open(file, "wb") as out:
        out.write(trace)
    return ran([sys.executable, os.path.join(TOP, "tools", "draw"), *words, file])


def words_beside(file):
    """The words with which the picture of a scenario is drawn."""
    beside = f"{os.path.splitext(file)[0]}.words"
    if not os.path.exists(beside):
        return []
    with open(beside, encoding="ascii") as words:
        return words.read().split()


def replayed(text):
    """What the replay says against a trace, if anything."""
    try:
        run_trace.check(run_trace.read_run(text))
    except (run_trace.Wrong, run_trace.BadTrace) as wrong:
        return str(wrong)
    return None


def untrue(file, trace):
    """What is wrong with what a run of the program on this file gave."""
    name = os.path.relpath(file, TOP)
    status, text, said = trace
    if (status, said) != (0, ""):
        return f"{name}: {PROGRAM}: status {status}: {said}"
    said = replayed(text.decode()) or untold(text.decode(), f"{file}.stderr")
    return said and f"{name}: {said}"


def untold(text, complaint):
    """What is wrong with the fates of the posts: each dispatch is that of one, and so many wait as `sim` says are left."""
    told = Fates(run_trace.read_run(text))
    events = sum(event.what == "from" for row in told.run.rows for event in row.events)
    dispatched = sum(len(post.dispatched) for post in told.posts)
    if events != dispatched:
        return f"{events} dispatches, and {dispatched} of posts are told"
    marked = {frozenset(pair) for pair, side in told.sides.items() if side.downs or side.lossy}
    waiting = sum(told.fate(post)[0] == WAITS and frozenset((post.sender, post.receiver)) not in marked for post in told.posts)
    said = ""
    if os.path.exists(complaint):
        with open(complaint, encoding="ascii") as file:
            said = file.read()
    due = f"left: {waiting}\n" if waiting else ""
    return None if said == due else f"{waiting} posts are told to wait, and sim says {said!r}"


def examples(folder, room):
    """What is wrong with the traces of the examples, of which no picture is stored, and with their pictures."""
    for name in sorted(os.listdir(folder)):
        if name.endswith(".scenario"):
            file = os.path.join(folder, name)
            trace = traced(file)
            said = untrue(file, trace)
            yield from [said] if said else []
            for words in ([], ["--handshakes"], ["--from", "5", "--to", "12"]):
                status, picture, fault = drawn(trace[1], room, words)
                yield from [f"{name}: tools/draw: status {status}: {fault}"] if status else []
                yield from (f"{name}: {' '.join(words)}: {it}" for it in overlaps(picture))


def pictures(folder, room):
    """What is wrong with the pictures, or with the traces of which they are drawn."""
    names = sorted(os.listdir(folder))
    for name in names:
        stem, kind = os.path.splitext(name)
        if name == PAGE:
            continue
        if kind != ".scenario":
            if f"{stem}.scenario" not in names and not (kind == ".stderr" and stem in names):
                yield f"{name}: stands beside no scenario"
            continue
        file = os.path.join(folder, name)
        trace = traced(file)
        said = untrue(file, trace)
        if said:
            yield said
            continue
        status, picture, said = drawn(trace[1], room, words_beside(file))
        if (status, said) != (0, ""):
            yield f"{name}: tools/draw: status {status}: {said}"
        yield from (f"{name}: {it}" for it in overlaps(picture))
        if status == 0 and differs(picture, os.path.join(folder, f"{stem}.svg")):
            yield f"{name}: another picture is drawn than the one that stands beside it ({PROGRAM}, tools/draw)"
        status, page, said = drawn(trace[1], room, ["--html", *words_beside(file)])
        if status or picture not in re.sub(rb' data-post="[0-9]+"', b"", page) or b'"played":true' not in page:
            yield f"{name}: the page has another picture, or no states (tools/draw --html): {said}"


def overlaps(picture):
    """Two texts of a picture that lie on each other, if there are any."""
    boxes = []
    for attributes, text in re.findall(r"<text ([^>]*)>(?:<title>.*?</title>)?([^<]*)</text>", picture.decode()):
        it = dict(re.findall(r'([a-z-]+)="([^"]*)"', attributes))
        size = next((size for name, size in SIZES.items() if name in it.get("class", "").split()), 11)
        x, y, width = float(it["x"]), float(it["y"]), LETTER * size * len(html.unescape(text))
        left = x - {"end": width, "middle": width / 2}.get(it.get("text-anchor"), 0)
        boxes.append((y - 0.73 * size, y + 0.22 * size, left, left + width, text))
    boxes.sort()
    for place, (top, bottom, left, right, text) in enumerate(boxes):
        for other in boxes[place + 1 :]:
            if other[0] >= bottom:
                break
            if other[2] < right and left < other[3]:
                yield f"`{text}` and `{other[4]}` lie on each other at {left:.0f}, {top:.0f}"


def differs(picture, file):
    if not os.path.exists(file):
        return True
    with open(file, "rb") as stored:
        return stored.read() != picture


def changed(text, old, new):
    wrong, count = re.subn(old, new, text, count=1, flags=re.M)
    return wrong if count else None


def objections(folder, room):
    """What isn't objected to, or otherwise than it should be."""
    sample = traced(os.path.join(folder, f"{SAMPLE}.scenario"))[1].decode("ascii")
    for old, new, line, why in BAD:
        status, picture, said = drawn((changed(sample, old, new) or "").encode(), room)
        told = re.fullmatch(r"bad trace: line ([0-9]+): (.*)\n", said)
        if (status, picture) != (2, b"") or not told or told[2] != why or int(told[1]) != line:
            yield f"{new}: status {status}, {said!r}, and expected line {line}: {why}"
    for old, new in UNTRUE:
        text = changed(sample, old, new)
        if text is None or not replayed(text):
            yield f"the replay doesn't object to {old!r} as {new!r}"
    other = drawn(sample.replace("accept_race", "accept_again").encode(), room)[1]
    if not differs(other, os.path.join(folder, f"{SAMPLE}.svg")):
        yield "the comparison doesn't object to another picture"
    if not list(overlaps(re.sub(rb'(<text [^>]*\by=")[^"]*', rb"\g<1>100", other))):
        yield "texts that lie on each other aren't seen"


def main():
    if not os.path.exists(os.path.join(TOP, PROGRAM)):
        sys.exit(f"{PROGRAM} isn't built")
    folder = os.path.join(TOP, PICTURES)
    with tempfile.TemporaryDirectory() as room:
        said = [*pictures(folder, room), *objections(folder, room), *examples(os.path.join(TOP, EXAMPLES), room)]
    for line in said:
        print(line)
    print("not all as expected" if said else f"{PICTURES}: all as drawn, each trace replayed, and each wrong one objected to")
    sys.exit(1 if said else 0)


main()
