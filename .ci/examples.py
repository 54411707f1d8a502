"""Runs the programs on each example and on each stored run of their own, and compares standard output, standard
error and the exit status with what is expected.

What is expected stands beside the file, as NAME.stdout, NAME.stderr and NAME.status: a missing one says that nothing
is written there, and that the status is 0. A file of examples/bad names in its first line the complaint that it gets.
A file without any of these fails. The stored runs are those of crates/PROGRAM/runs; NAME.args has their words, one a
line, in which {} stands for the file.

The programs are those that rt ci built. Among the files are copies of an example with a wrong expectation, and one with
none: the comparison must object to each.

The traces of examples/traces are replayed besides, by tools/replay_trace.py, which knows nothing of the crates. It must
object to each of them once a line of a journal is left out, a byte is changed, a judgement has another row, or the session is
another.
"""
import os, re, shutil, subprocess, sys, tempfile

TOP = os.path.dirname(os.path.dirname(os.path.abspath(__file__)))
sys.path.insert(0, os.path.join(TOP, "tools"))
import replay_trace

PARTS = ("stdout", "stderr", "status")
SIDE = re.compile(r"\.(stdout|stderr|status|args)$")
COMPLAINT = re.compile(r"# (bad scenario: line [0-9]+ kind [0-9]+):")
BAD_SCENARIO = 2
TRACES = "examples/traces"
FOLDERS = {  # the program, and the words that it gets for a file of the folder; of a stored run they stand beside it
    "examples": ("msgr2", ["sim", "{}"]),
    "examples/bad": ("msgr2", ["sim", "{}"]),
    "examples/frames": ("msgr2", ["frames", "{}"]),
    "crates/msgr2/runs": ("msgr2", None),
    TRACES: ("record_trace", ["{}"]),
    "crates/explain/runs": ("explain", None),
    "crates/frame_facts/runs": ("frame_facts", None),
    "crates/record_trace/runs": ("record_trace", None),
    "crates/run_trace/runs": ("run_trace", None),
}
# Copies of this example get a wrong expectation each: the part, and what is wrong about it.
SAMPLE, SAMPLE_WORDS = "examples/frames/bad_crc.frames", ["frames", "{}"]
WRONG = {"stdout": "MESSAGE 41 0 0 2\n", "stderr": "bad frames: place 91 fault 9\n", "status": "9\n"}


def text_of(name):
    with open(name, "rb") as file:
        return file.read()


def expected_of(file):
    """What is expected of a file, by part, or None where nothing says it."""
    beside = {part: text_of(f"{file}.{part}") for part in PARTS if os.path.exists(f"{file}.{part}")}
    if beside:
        return {
            "stdout": beside.get("stdout", b""),
            "stderr": beside.get("stderr", b""),
            "status": int(beside.get("status", b"0")),
        }
    first = text_of(file).partition(b"\n")[0].decode("utf-8", "replace")
    named = COMPLAINT.match(first)
    return named and {"stdout": b"", "stderr": f"{named[1]}\n".encode(), "status": BAD_SCENARIO}


def objections(file, got):
    """What is wrong about a run of the program on this file."""
    expected = expected_of(file)
    if expected is None:
        return ["nothing says what is expected of it"]
    return [f"{part}: {got[part]!r}, and expected {expected[part]!r}" for part in PARTS if got[part] != expected[part]]


def cases_of(folder, words):
    """The files of a folder that are run, each with its words; and what stands beside no file."""
    names = sorted(name for name in os.listdir(os.path.join(TOP, folder)) if os.path.isfile(os.path.join(TOP, folder, name)))
    cases, stray = {}, []
    for name in names:
        if SIDE.search(name):
            if SIDE.sub("", name) not in names:
                stray.append(f"{folder}/{name}")
            continue
        file = os.path.join(TOP, folder, name)
        own = text_of(f"{file}.args").decode().split("\n")[:-1] if os.path.exists(f"{file}.args") else []
        cases[f"{folder}/{name}"] = own if words is None else words
    return cases, stray


def wrong_ones(room):
    """Copies of an example whose expectation is wrong in one part each, and one that has none."""
    files = {}
    for part in [*PARTS, "nothing"]:
        file = os.path.join(room, f"wrong_{part}")
        shutil.copy(os.path.join(TOP, SAMPLE), file)
        for it in PARTS if part != "nothing" else ():
            shutil.copy(os.path.join(TOP, f"{SAMPLE}.{it}"), f"{file}.{it}")
        if part in WRONG:
            with open(f"{file}.{part}", "w", encoding="utf-8") as out:
                out.write(WRONG[part])
        files[part] = file
    return files


def run_all(program, files):
    """What the program, as rt ci built it, gives on each file with its words."""
    made = os.path.join(TOP, "crates", program, "out", program)
    if not os.path.exists(made):
        sys.exit(f"crates/{program}/out/{program} isn't built")
    got = []
    for file, words in files:
        ran = subprocess.run([made, *(file if word == "{}" else word for word in words)], stdin=subprocess.DEVNULL, capture_output=True)
        got.append({"stdout": ran.stdout, "stderr": ran.stderr, "status": ran.returncode})
    return got


def replayed(trace):
    """What the replay says against a trace, if anything."""
    try:
        replay_trace.check(trace)
    except (replay_trace.Wrong, replay_trace.NoTrace) as wrong:
        return str(wrong)
    return None


def wrong_traces(trace):
    """The trace with a read left out, with a byte of a log changed, with another row, and with another session."""
    read = re.search(r"^b journal (read|wrote) .*\n", trace, re.M)
    got = re.search(r"^b feed got .*[0-9a-f](?=\n)", trace, re.M)
    return {
        "an entry left out": trace[: read.start()] + trace[read.end() :],
        "a byte changed": trace[: got.end() - 1] + ("1" if trace[got.end() - 1] == "0" else "0") + trace[got.end() :],
        "another row": re.sub(r"^(. journal judged .*) [a-z_]+$", r"\1 lossy", trace, count=1, flags=re.M),
        "another session": re.sub(r"^a session ([a-z_]+) ([0-9]+)", r"a session \1 1\2", trace, flags=re.M),
    }


def replays():
    """Whether each stored trace is replayed, and each wrong one objected to."""
    good = True
    for name in sorted(os.listdir(os.path.join(TOP, TRACES))):
        if not name.endswith(".stdout"):
            continue
        trace = text_of(os.path.join(TOP, TRACES, name)).decode()
        said = replayed(trace)
        if said:
            good = False
            print(f"{TRACES}/{name}: {said}")
        for part, wrong in wrong_traces(trace).items():
            if not replayed(wrong):
                good = False
                print(f"{TRACES}/{name}: the replay doesn't object to {part}")
    return good


def main():
    good = replays()
    runs, counts = {}, {}
    for folder, (program, words) in FOLDERS.items():
        cases, stray = cases_of(folder, words)
        counts[folder] = len(cases)
        runs.setdefault(program, []).extend((os.path.join(TOP, name), its) for name, its in cases.items())
        for name in stray:
            good = False
            print(f"{name}: stands beside no file")
    with tempfile.TemporaryDirectory() as room:
        wrong = wrong_ones(room)
        of_wrong = [(file, SAMPLE_WORDS) for file in wrong.values()]
        got = {program: run_all(program, its + (of_wrong if program == "msgr2" else [])) for program, its in runs.items()}
        for program, its in runs.items():
            for (file, _), it in zip(its, got[program]):
                for said in objections(file, it):
                    good = False
                    print(f"{os.path.relpath(file, TOP)}: {said}")
        for (part, file), it in zip(wrong.items(), got["msgr2"][len(runs["msgr2"]) :]):
            said = objections(file, it)
            if len(said) != 1 or not said[0].startswith(part):
                good = False
                print(f"the comparison doesn't object to a wrong expectation ({part}): {said}")
    for folder, count in counts.items():
        print(f"{folder}: {count} files run")
    print("all as expected, and each wrong expectation was objected to" if good else "not all as expected")
    sys.exit(0 if good else 1)


main()
