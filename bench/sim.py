"""Times `msgr2 sim`: the rate at growing numbers of posts, the peak of memory, and a reference in the same run; then
the rate at growing numbers of nodes, with the same posts and turns; then what a turn takes in growing sessions."""
import os, sys, tempfile, time

SIZES = [2500, 5000, 10000, 20000]
FAULTS = 64
RUNS = 7
NODES = [2, 4, 8, 16]
POSTS = 20000
TURNS = 20000
LAST = 16  # rounds, in which all that was posted comes over
STEPS = [1250, 2500, 5000, 10000]


def scenario(posts):
    lines = ["node a osd 127.0.0.1:7001/1", "node b osd 127.0.0.1:7002/2", "link a b lossless_peer lossless_peer"]
    every = posts // FAULTS
    for i in range(posts):
        pair = "a b" if i % 2 == 0 else "b a"
        lines.append(f"post {pair} 1 127 {i:064x} - -")
        if i % every == every // 2:
            lines += ["turn a", "fault a b", "turn b"]
    lines += ["settle 64", ""]
    return "\n".join(lines)


def mesh(nodes):
    """POSTS posts and TURNS turns of so many nodes, each linked with each, in rounds spread among the posts."""
    lines = [f"node n{i} osd 127.0.0.1:{7000 + i}/{i} fast 1" for i in range(nodes)]
    lines += [f"link n{i} n{j} lossless_peer lossless_peer" for i in range(nodes) for j in range(i + 1, nodes)]
    pairs = [(i, j) for i in range(nodes) for j in range(nodes) if i != j]
    rounds = TURNS // nodes
    every = POSTS // (rounds - LAST)
    for i in range(POSTS):
        a, b = pairs[i % len(pairs)]
        priority = (64, 127, 196, 255)[i % 4]
        lines.append(f"post n{a} n{b} {1 + i // 4 % 2} {priority} {i:064x} - -")
        if i % every == every - 1 and rounds > LAST:
            lines.append("settle 1")
            rounds -= 1
    lines += [f"settle {rounds}", ""]
    return "\n".join(lines)


def steps(posts):
    """So many posts over one socket, one in a round: two turns for each."""
    lines = ["node a osd 127.0.0.1:7001/1", "node b osd 127.0.0.1:7002/2", "link a b lossless_peer lossless_peer"]
    lines += ["dial a b", "settle 12"]
    for i in range(posts):
        lines += [f"post a b 1 127 {i:064x} - -", "settle 1"]
    return "\n".join([*lines, "settle 2", ""])


def run(words, want):
    """Seconds and megabytes at peak of one run."""
    start = time.perf_counter()
    child = os.fork()
    if child == 0:
        null = os.open(os.devnull, os.O_WRONLY)
        os.dup2(null, 1)
        os.execvp(words[0], words)
    _, status, usage = os.wait4(child, 0)
    took = time.perf_counter() - start
    if os.waitstatus_to_exitcode(status) != want:
        sys.exit(f"{words}: status {os.waitstatus_to_exitcode(status)}")
    return took, usage.ru_maxrss / 1024


def best(words, want=0):
    runs = [run(words, want) for _ in range(RUNS)]
    return min(t for t, _ in runs), max(m for _, m in runs)


def timed(program, folder, name, text):
    """The best time and the peak of memory of a run of this scenario, whose file stays in the folder."""
    file = os.path.join(folder, f"{name}.scenario")
    with open(file, "w") as it:
        it.write(text)
    return (*best([program, "sim", file]), file)


def main():
    program = os.path.abspath(sys.argv[1])
    here = os.path.dirname(os.path.abspath(__file__))
    rates, times, turns = {}, {}, {}
    with tempfile.TemporaryDirectory() as folder:
        print("posts  seconds  posts/s  MB at peak")
        for posts in SIZES:
            seconds, megabytes, file = timed(program, folder, posts, scenario(posts))
            rates[posts] = posts / seconds
            print(f"{posts:5d}  {seconds:7.4f}  {rates[posts]:7.0f}  {megabytes:10.1f}")
        reference, _ = best([sys.executable, os.path.join(here, "split_words.py"), file])
        print("nodes  seconds  posts/s  links  MB at peak")
        for nodes in NODES:
            times[nodes], most, _ = timed(program, folder, f"mesh{nodes}", mesh(nodes))
            print(f"{nodes:5d}  {times[nodes]:7.4f}  {POSTS / times[nodes]:7.0f}  {nodes * (nodes - 1) // 2:5d}  {most:10.1f}")
        print("messages of one session, one in a round  seconds  microseconds a message")
        for posts in STEPS:
            took, _, _ = timed(program, folder, f"steps{posts}", steps(posts))
            turns[posts] = took / posts
            print(f"{posts:39d}  {took:7.4f}  {turns[posts] * 1e6:22.1f}")
    print(f"seconds at {SIZES[-1]}: {seconds:.2f} (wanted: less than 2); over splitting alone in Python: {seconds / reference:.1f}")
    print(f"megabytes at {SIZES[-1]}: {megabytes:.1f} (wanted: less than 300)")
    print(f"rate at {SIZES[-1]} over rate at {SIZES[0]}: {rates[SIZES[-1]] / rates[SIZES[0]]:.2f} (wanted: 0.8 or more)")
    for nodes in NODES[1:]:
        print(f"time at {nodes} nodes over 2: {times[nodes] / times[2]:.2f} (wanted: less than {nodes // 2})")
    print(f"a message's time in a session of {STEPS[-1]} over one of {STEPS[0]}: {turns[STEPS[-1]] / turns[STEPS[0]]:.2f} (wanted: no more than 1.25)")


if __name__ == "__main__":
    main()
