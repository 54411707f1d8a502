"""Times take and give of a throttle, alone and shared by 1, 2 and 4 threads, beside a C loop of two atomic additions and
one of a mutex, in one go and in turn."""
import os, subprocess, sys, time

RUNS = 5
ROUNDS = 4_000_000  # of each thread
FEW = 1_000  # rounds of the run whose time is taken off: that of starting


def seconds(words):
    """How long one run takes."""
    start = time.perf_counter()
    done = subprocess.run(words)
    took = time.perf_counter() - start
    if done.returncode != 0:
        sys.exit(f"{words}: status {done.returncode}")
    return took


def main():
    ours, c = sys.argv[1:3]
    rows = [("throttle, alone", ours, "alone", 1)]
    for threads in (1, 2, 4):
        rows.append((f"throttle, {threads} thread{'s' * (threads > 1)}", ours, "shared", threads))
        rows.append((f"C, two atomic additions, {threads}", c, "add", threads))
        rows.append((f"C, a mutex twice, {threads}", c, "mutex", threads))
    best = {name: [float("inf")] * 2 for name, *_ in rows}
    for _ in range(RUNS):
        for name, program, kind, threads in rows:
            for i, rounds in enumerate((ROUNDS, FEW)):
                best[name][i] = min(best[name][i], seconds([program, kind, str(threads), str(rounds)]))
    print("a take and a give of 1; nanoseconds a round of one thread, best of", RUNS, "runs;", os.cpu_count(), "processors")
    for name, *_ in rows:
        whole, start = best[name]
        print(f"{name:32} {(whole - start) / (ROUNDS - FEW) * 1e9:8.1f}")


main()
