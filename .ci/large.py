"""Runs the program on two scenarios near the limits of a file, in a stack of 256 KB: a call that went one deeper with
each socket, message or turn would end it.

The first has 16 nodes, 120 links, 20,000 posts and some 4 MB; 64 sockets are cut and 64 faulted, each at a client that
dials again. What is printed is compared with the posts, which this script made: of each two nodes, priority and path
all of them, in order, each once. The second has 20,000 rounds in which two peers open sockets and close them, and
nothing comes over (docs/SCENARIOS.md, "What isn't promised").
"""
import os, resource, subprocess, sys, tempfile

TOP = os.path.dirname(os.path.dirname(os.path.abspath(__file__)))
PROGRAM = os.path.join(TOP, "crates/msgr2/out/msgr2")
NODES, POSTS, CUTS, FAULTS, ROUNDS = 16, 20_000, 64, 64, 20_000
FILE, STACK = 4_194_304, 256 * 1024
PRIORITIES, KINDS, FAST = (64, 127, 196, 255), (1, 2, 3), (2,)


def scenario():
    """The lines, and of each (reader, writer, priority, path) the fronts in order."""
    pairs = [(a, b) for a in range(NODES) for b in range(a + 1, NODES)]
    lines = [f"node n{i} osd 127.0.0.1:{7000 + i}/{i} fast {FAST[0]}" for i in range(NODES)]
    lines += [f"link n{a} n{b} lossless_client stateful_server" for a, b in pairs]
    lines += [f"cut n{a} n{b} {1000 + 97 * k}" for k, (a, b) in enumerate(pairs[:CUTS])]
    lines += [f"dial n{a} n{b}" for a, b in pairs] + ["settle 12"]
    digits = (FILE - 64 * 1024) // POSTS - 28
    wanted = {}
    for i in range(POSTS):
        a, b = pairs[i // 2 % len(pairs)][:: 1 if i % 2 else -1]
        priority, kind = PRIORITIES[i // 7 % 4], KINDS[i // 11 % 3]
        front = f"{i:0{digits & ~1}x}"
        lines.append(f"post n{a} n{b} {kind} {priority} {front} - -")
        path = "fast" if kind in FAST else "queued"
        wanted.setdefault((f"n{b}", f"n{a}", str(priority), path), []).append(front)
        if i % (POSTS // FAULTS) == 100:
            a, b = pairs[i // 100 % len(pairs)]
            lines += [f"turn n{a}", f"fault n{a} n{b}", "settle 2"]
    return "\n".join([*lines, "settle 60", ""]), wanted


def repeated():
    """Two peers that dial again in one round, for as many rounds as a file may have."""
    lines = ["node a osd 127.0.0.1:7001/1", "node b osd 127.0.0.1:7002/2", "link a b lossless_peer lossless_peer"]
    lines += ["cut a b 600", "post a b 1 127 61 - -", "post b a 1 127 62 - -"]
    rounds = [min(10_000, ROUNDS - k) for k in range(0, ROUNDS, 10_000)]
    return "\n".join([*lines, *(f"settle {n}" for n in rounds), ""])


def run(text):
    """What the program printed, what it said, and its status."""
    with tempfile.TemporaryDirectory() as folder:
        name = os.path.join(folder, "large.scenario")
        with open(name, "w") as file:
            file.write(text)
        limit = lambda: resource.setrlimit(resource.RLIMIT_STACK, (STACK, STACK))
        ended = subprocess.run([PROGRAM, "sim", name], capture_output=True, preexec_fn=limit, text=True)
    return ended.stdout, ended.stderr, ended.returncode


def main():
    text, wanted = scenario()
    if not 0.95 * FILE < len(text) <= FILE:
        sys.exit(f"the scenario has {len(text)} bytes")
    printed, said, status = run(text)
    if status or said:
        sys.exit(f"large: status {status}, {said.strip()}")
    seen = {}
    for line in printed.splitlines():
        reader, _, writer, priority, path, _, front, _, _ = line.split()
        seen.setdefault((reader, writer, priority, path), []).append(front)
    if seen != wanted:
        sys.exit("large: what was dispatched is not what was posted")
    print(f"large: {POSTS} posts in {len(text)} bytes came in order, each once, in a stack of {STACK} bytes")
    if run(repeated()) != ("", "left: 2\n", 8):
        sys.exit(f"large: {ROUNDS} rounds of two peers that dial again in one round came out otherwise")
    print(f"large: {ROUNDS} rounds of sockets that don't last, in a stack of {STACK} bytes")


main()
