"""Times `msgr2 sim` over rounds in which sockets never last: two lossless peers dial again in one round, again and again."""
import os, sys, tempfile, time

ROUNDS = [2500, 5000, 10000, 20000]
RUNS = 3
LEFT = 8  # the status with posts that are left
MOST_GROWTH = 2.3  # of the time, from a number of rounds to twice as many
MOST_MB = 100
MOST_OF_A_LINE = 10000  # rounds of one settle line


def scenario(rounds):
    lines = ["node a osd 127.0.0.1:7001/1", "node b osd 127.0.0.1:7002/2", "link a b lossless_peer lossless_peer", "cut a b 600"]
    lines += ["post a b 1 127 61 - -", "post b a 1 127 62 - -"]
    lines += [f"settle {min(MOST_OF_A_LINE, rounds - done)}" for done in range(0, rounds, MOST_OF_A_LINE)]
    return "\n".join([*lines, ""])


def run(words):
    """Seconds and megabytes at peak of one run."""
    start = time.perf_counter()
    child = os.fork()
    if child == 0:
        null = os.open(os.devnull, os.O_WRONLY)
        os.dup2(null, 1)
        os.dup2(null, 2)
        os.execvp(words[0], words)
    _, status, used = os.wait4(child, 0)
    if os.waitstatus_to_exitcode(status) != LEFT:
        sys.exit(f"{' '.join(words)}: status {os.waitstatus_to_exitcode(status)}")
    return time.perf_counter() - start, used.ru_maxrss / 1024


def main():
    program = sys.argv[1]
    print("rounds   seconds   over half as many   MB at peak")
    before = None
    with tempfile.TemporaryDirectory() as folder:
        path = os.path.join(folder, "redial.scenario")
        for rounds in ROUNDS:
            with open(path, "w", encoding="utf-8") as file:
                file.write(scenario(rounds))
            seconds, megabytes = map(min, zip(*(run([program, "sim", path]) for _ in range(RUNS))))
            growth = seconds / before if before else 0.0
            missed = growth > MOST_GROWTH or megabytes > MOST_MB
            print(f"{rounds:6,} {seconds:9.3f} {growth:19.2f} {megabytes:12.1f}{'   missed' if missed else ''}", flush=True)
            before = seconds


main()
