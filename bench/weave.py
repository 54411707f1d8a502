"""Times the weaving of the journals of a pair, with 2,000, 20,000 and 200,000 messages, in one go and in turn: over one
socket, over sockets of 1,000 messages each, and over sockets of 100. The time of making the journals is taken off: at
2,000 messages what is left is about nothing, so a message's time is laid beside that at 20,000."""
import os, subprocess, sys, time

RUNS = 7
MESSAGES = (2_000, 20_000, 200_000)
EACH = ("all", 1_000, 100)


def seconds(words):
    """How long one run takes."""
    start = time.perf_counter()
    done = subprocess.run(words)
    took = time.perf_counter() - start
    if done.returncode != 0:
        sys.exit(f"{words}: status {done.returncode}")
    return took


def main():
    (program,) = sys.argv[1:]
    rows = [(each, n) for each in EACH for n in MESSAGES]
    best = {row: {"make": float("inf"), "weave": float("inf")} for row in rows}
    for _ in range(RUNS):
        for each, n in rows:
            for kind in ("make", "weave"):
                words = [program, kind, str(n), str(n if each == "all" else each)]
                best[each, n][kind] = min(best[each, n][kind], seconds(words))
    print("best of", RUNS, "runs;", os.cpu_count(), "processors")
    print(f"{'messages':>9} {'sockets':>8} {'ms':>8} {'ns a message':>13} {'over that at 20,000':>20} {'over making':>12}")
    for each in EACH:
        made, whole = best[each, 20_000]["make"], best[each, 20_000]["weave"]
        first = (whole - made) / 20_000 * 1e9
        for n in MESSAGES:
            made, whole = best[each, n]["make"], best[each, n]["weave"]
            rate = (whole - made) / n * 1e9
            sockets = 1 if each == "all" else n // each
            print(f"{n:9} {sockets:8} {(whole - made) * 1e3:8.1f} {rate:13.0f} {rate / first:20.2f} {(whole - made) / made:12.2f}")


main()
