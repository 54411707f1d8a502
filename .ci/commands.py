"""Runs the commands that README and the manuals give, word for word, and compares what they print.

A command is a line of a code block that begins with `$ `; what stands behind five spaces and a `#` is said to the reader. The
lines behind it, up to the next command or the end of the block, are what it prints on standard output; where there are none
that isn't compared. Each must end with status 0. They run in a folder in which the repository's files lie as links, so that
what they write isn't left in it; those of one page one after another. Those that NOT_RUN names are told, with why they don't
run here.
"""
import os, re, subprocess, sys, tempfile

TOP = os.path.dirname(os.path.dirname(os.path.abspath(__file__)))
PAGES = ("README.md", "docs/SCENARIOS.md", "docs/FRAMES.md", "examples/pictures/README.md")
BUILT = ("msgr2", "run_trace", "frame_facts", "explain")  # that the gate has proved and built before
MOST = 300  # seconds of one command
NOT_RUN = {  # by their beginnings
    ".ci/run": "it is the gate, of which this is a part",
    "./msgr2 --unproved ": "it builds for minutes what the gate has proved and built; the same words run without it",
    "(cd crates/record_trace && rt try": "it builds for a minute, for one call, what the gate proves and runs on the same file",
    "./msgr2 capture ": "it wants dpkt, which this machine may lack; .ci/captures.py lays what it tells beside traces",
    "./msgr2 trace --run ": "its ports may be taken; .ci/kept_traces.py traces such files at ports that the system chooses",
    "./msgr2 why --run ": "its ports may be taken; .ci/kept_traces.py traces such files at ports that the system chooses",
    "./msgr2 why --all threads.trace": "it wants that trace; .ci/kept_traces.py runs it on others",
    "./msgr2 draw threads.trace ": "it wants that trace; .ci/kept_traces.py runs it on others",
    "./msgr2 run ": "its ports may be taken; .ci/threads.py runs such files at ports that the system chooses",
    "tcpdump ": "it wants the right to capture, and connections; checks/streams.sh records some",
    "tools/streams capture.pcap ": "it wants that capture; checks/streams.sh runs it on one",
    "./msgr2 frames streams/": "it wants a stream of that capture; checks/streams.sh runs it on one",
}


def commands(page):
    """The commands of a page, each with what it is said to print."""
    with open(os.path.join(TOP, page), encoding="utf-8") as file:
        blocks = re.findall(r"^```\n(.*?)^```$", file.read(), re.M | re.S)
    for block in blocks:
        found = None
        for line in block.splitlines():
            if line.startswith("$ "):
                if found:
                    yield found
                found = (re.sub(" {5,}#.*", "", line[2:]).strip(), [])
            elif found:
                found[1].append(line)
        if found:
            yield found


def objection(command, printed, room):
    """What is wrong about a command, if anything is."""
    try:
        ran = subprocess.run(["bash", "-c", command], cwd=room, capture_output=True, text=True, timeout=MOST)
    except subprocess.TimeoutExpired:
        return f"not ended after {MOST} seconds"
    if ran.returncode:
        return f"status {ran.returncode}: {ran.stderr.strip()}"
    if printed and ran.stdout.splitlines() != printed:
        return f"it prints\n{ran.stdout}and the page says\n" + "".join(f"{line}\n" for line in printed)
    return None


def main():
    for program in BUILT:  # so that the launcher takes the gate's build for new
        built = os.path.join(TOP, "crates", program, "out", program)
        if not os.path.exists(built):
            sys.exit(f"{built} isn't built")
        os.utime(built)
    good, ran = True, 0
    for page in PAGES:
        with tempfile.TemporaryDirectory() as room:
            for name in os.listdir(TOP):
                os.symlink(os.path.join(TOP, name), os.path.join(room, name))
            for command, printed in commands(page):
                why = next((why for start, why in NOT_RUN.items() if command.startswith(start)), None)
                said = None if why else objection(command, printed, room)
                ran += not why
                if why:
                    print(f"{page}: `{command}` isn't run: {why}")
                if said:
                    good = False
                    print(f"{page}: `{command}`: {said}")
    print(f"{ran} commands of README and the manuals ran" + ("" if good else ", and not all as the pages say"))
    sys.exit(0 if good else 1)


main()
