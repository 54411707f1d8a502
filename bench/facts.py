"""Times frame_facts beside `msgr2 frames`, in one go and in turn, on frames of one size a row. What they print differs, so it is
written to /dev/null; that it is right is shown by the gate."""
import os, sys, tempfile

from frames import FILE, RUNS, WHOLE, of_size, run

WANTED = 0.5  # of the rate of `msgr2 frames`


def main():
    facts, msgr2 = (os.path.abspath(it) for it in sys.argv[1:3])
    programs = [[msgr2, "frames"], [facts], [facts, "--json"]]
    print("bytes of a frame   frames MB/s   facts, of that   with --json   MB at peak")
    good = True
    with tempfile.TemporaryDirectory() as folder:
        for size in WHOLE:
            capture = os.path.join(folder, "frames")
            with open(capture, "wb") as file:
                several = b"".join(of_size(size) for _ in range(max(1, min(64, 1_000_000 // size))))
                for _ in range(max(1, FILE // len(several))):
                    file.write(several)
            rounds = [[run([*words, capture], "/dev/null") for words in programs] for _ in range(RUNS)]
            best = [min(it[i][0] for it in rounds) for i in range(len(programs))]
            peak = max(it[i][1] for it in rounds for i in (1, 2))
            rate = os.path.getsize(capture) / best[0] / 1e6
            good = good and best[0] / best[1] >= WANTED
            print(f"{size:>16} {rate:>13.0f} {best[0] / best[1]:>16.2f} {best[0] / best[2]:>13.2f} {peak:>12.1f}")
    print(f"wanted: at least {WANTED} as lines: {'so it is' if good else 'it is not'}")
    return 0 if good else 1


sys.exit(main())
