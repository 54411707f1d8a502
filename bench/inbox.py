"""Times put and take of an inbox, in one thread and from one to another, beside the channel of Rust's std, in one go and in
turn."""
import os, subprocess, sys, time

RUNS = 5
COUNT = 1_000_000  # numbers of a run
FEW = 1_000  # numbers of the run whose time is taken off: that of starting
ROWS = ((1, 1), (1, 64), (2, 64), (2, 1_024))  # threads and places


def seconds(words):
    """How long one run takes. Its sum has to be that of the numbers."""
    count = int(words[-1])
    start = time.perf_counter()
    done = subprocess.run(words, stdout=subprocess.PIPE)
    took = time.perf_counter() - start
    if done.returncode != 0 or int(done.stdout) != count * (count - 1) // 2:
        sys.exit(f"{words}: status {done.returncode}, {done.stdout}")
    return took


def main():
    programs = [("inbox", sys.argv[1]), ("std's channel in Rust", sys.argv[2])]
    best = {(row, name, count): float("inf") for row in ROWS for name, _ in programs for count in (COUNT, FEW)}
    for _ in range(RUNS):
        for row in ROWS:
            for name, program in programs:
                for count in (COUNT, FEW):
                    took = seconds([program, *map(str, row), str(count)])
                    best[row, name, count] = min(best[row, name, count], took)
    print("a put and a take; nanoseconds a number, best of", RUNS, "runs;", os.cpu_count(), "processors")
    print(f"{'threads':>7} {'places':>7}" + "".join(f"{name:>24}" for name, _ in programs) + f"{'ratio':>8}")
    for row in ROWS:
        each = [(best[row, name, COUNT] - best[row, name, FEW]) / (COUNT - FEW) * 1e9 for name, _ in programs]
        print(f"{row[0]:7} {row[1]:7}" + "".join(f"{ns:24.1f}" for ns in each) + f"{each[0] / each[1]:8.2f}")


main()
