"""Times `msgr2 load`: the rate at growing numbers of posts and the peak of memory; beside it, in turn in the same run,
`msgr2 sim` over a file of the same scenario. The three lines of `load` are compared with what `sim` printed."""
import os, subprocess, sys, tempfile, time

SIZES = [2500, 5000, 10000, 20000]
SEED = 7
RUNS = 7


def scenario(posts, seed):
    """The generated scenario as a file has it (docs/SCENARIOS.md, "Generated load")."""
    lines = [f"node n{k} osd 127.0.0.1:{7000 + k}/{k + 1} fast 1 throttle 65536" for k in range(4)]
    lines += [f"link n{a} n{b} lossless_peer lossless_peer" for a in range(4) for b in range(a + 1, 4)]
    state, faults = seed, 0

    def draw():
        nonlocal state
        state = (state * 6364136223846793005 + 1442695040888963407) % 2**64
        return state >> 33

    for i in range(posts):
        a = draw() % 4
        b = (a + 1 + draw() % 3) % 4
        kind, priority = 1 + draw() % 2, (64, 127, 196, 255)[draw() % 4]
        front = f"{i % 256:02x}" * (draw() % 32) or "-"
        lines.append(f"post n{a} n{b} {kind} {priority} {front} - -")
        if i % 16 == 15 and faults < 64:
            lines.append(f"fault n{a} n{b}")
            faults += 1
        if i % 8 == 7:
            lines.append("settle 1")
    lines += ["settle 200", ""]
    return "\n".join(lines)


def run(words):
    """Seconds and megabytes at peak of one run that ends with status 0 or 8."""
    start = time.perf_counter()
    child = os.fork()
    if child == 0:
        null = os.open(os.devnull, os.O_WRONLY)
        os.dup2(null, 1)
        os.dup2(null, 2)
        os.execvp(words[0], words)
    _, status, usage = os.wait4(child, 0)
    took = time.perf_counter() - start
    if os.waitstatus_to_exitcode(status) not in (0, 8):
        sys.exit(f"{words}: status {os.waitstatus_to_exitcode(status)}")
    return took, usage.ru_maxrss / 1024


def best(*commands):
    """Of each command the least seconds and the most megabytes, the commands run in turn."""
    seen = [[] for _ in commands]
    for _ in range(RUNS):
        for of, words in zip(seen, commands):
            of.append(run(words))
    return [(min(t for t, _ in of), max(m for _, m in of)) for of in seen]


def output(words):
    return subprocess.run(words, stdout=subprocess.PIPE, stderr=subprocess.DEVNULL).stdout.decode()


def main():
    program = os.path.abspath(sys.argv[1])
    rates = {}
    with tempfile.TemporaryDirectory() as folder:
        print("posts  load: seconds  posts/s  MB at peak  sim of a file: seconds  MB at peak  load over sim")
        for posts in SIZES:
            name = os.path.join(folder, f"{posts}.scenario")
            with open(name, "w") as file:
                file.write(scenario(posts, SEED))
            load, sim = [program, "load", str(posts), str(SEED)], [program, "sim", name]
            dispatched = output(sim).count("\n")
            want = f"posted {posts}\ndispatched {dispatched}\nleft {posts - dispatched}\n"
            if output(load) != want:
                sys.exit(f"load {posts} {SEED} doesn't print what sim of its file comes to: {want!r}")
            (seconds, megabytes), (beside, its) = best(load, sim)
            rates[posts] = posts / seconds
            print(f"{posts:5d}  {seconds:13.4f}  {rates[posts]:7.0f}  {megabytes:10.1f}  {beside:22.4f}  {its:10.1f}  {seconds / beside:13.2f}")
    print(f"rate at {SIZES[-1]} over rate at {SIZES[0]}: {rates[SIZES[-1]] / rates[SIZES[0]]:.2f} (wanted: 0.8 or more)")


main()
