"""Times how long two records take to pass 20,000 and 200,000 messages of one size over ends in memory, in turn with a C program
that writes and reads the same frames, and with one that keeps what two ends and two sides keep. Each program times itself."""
import os, resource, subprocess, sys

RUNS = 3
COUNTS = (20_000, 200_000)
SIZES = (0, 16, 128, 4_096)
WANTED_GROWTH, WANTED_OVER_C, WANTED_RATE = 0.9, {4_096: 0.5}, {16: 400_000}


def seconds(program, count, size):
    return int(subprocess.run([program, str(count), str(size)], stdout=subprocess.PIPE, check=True, text=True).stdout) / 1e9


def main():
    programs = sys.argv[1:]
    rows = [(size, count) for size in SIZES for count in COUNTS]
    best = {row: [float("inf")] * len(programs) for row in rows}
    for _ in range(RUNS):
        for size, count in rows:
            for i, program in enumerate(programs):
                best[size, count][i] = min(best[size, count][i], seconds(program, count, size))
    print("best of", RUNS, "runs;", os.cpu_count(), "processors, load", " ".join(f"{it:.1f}" for it in os.getloadavg()))
    print(f"{'bytes':>6} {'messages':>9} {'messages a second':>18} {'MB a second':>12} {'growth':>7} {'over C':>7} {'over C that keeps all':>22}")
    for size in SIZES:
        rates = {count: count / best[size, count][0] for count in COUNTS}
        for count in COUNTS:
            ours, plain, logged = best[size, count]
            growth = rates[count] / rates[COUNTS[0]]
            missed = growth < WANTED_GROWTH or plain / ours < WANTED_OVER_C.get(size, 0) or rates[count] < WANTED_RATE.get(size, 0)
            print(f"{size:6,} {count:9,} {rates[count]:18,.0f} {rates[count] * size / 1e6:12.1f} {growth:7.2f} {plain / ours:7.2f} {logged / ours:22.2f}{'   missed' if missed else ''}")
    print("MB at peak:", resource.getrusage(resource.RUSAGE_CHILDREN).ru_maxrss // 1024)


main()
