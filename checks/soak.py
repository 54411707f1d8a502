"""Runs generated scenarios on threads until a time is over, and compares each report with the one that is known beforehand
(checks/soak.sh): where every link is of lossless peers and nobody is marked down, all posts, of each key in order, each once.

usage: soak.py PROGRAM MINUTES [SEED]
"""
import multiprocessing, os, random, subprocess, sys, tempfile, time

TOP = os.path.dirname(os.path.dirname(os.path.abspath(__file__)))
sys.dont_write_bytecode = True
sys.path.insert(0, os.path.join(TOP, ".ci"))
from threads import ports, sorted_report

SECONDS = 120  # of one run
MOST_CUTS = 64  # of a scenario
MOST_FILE = 4_000_000  # bytes of a scenario


def scenario(seed):
    """Its lines, its report, and how many posts and cut lines it has."""
    r = random.Random(seed)
    names = [f"n{i}" for i in range(r.choice([2, 2, 3, 4, 6]))]
    fast = {name for name in names if r.random() < 0.4}
    lines = []
    for place, (name, port) in enumerate(zip(names, ports(len(names)))):
        options = f" centers {r.randint(1, 4)}" + (" fast 2" if name in fast else "")
        options += f" throttle {r.choice([1, 50, 300, 5_000, 100_000])}" if r.random() < 0.4 else ""
        lines.append(f"node {name} osd 127.0.0.1:{port}/{r.randrange(1, 2**32) if r.random() < 0.5 else place + 1}{options}")
    pairs = [(a, b) for i, a in enumerate(names) for b in names[i + 1 :]]
    pairs = [pair for pair in pairs if len(names) == 2 or r.random() < 0.8] or pairs[:1]
    lines += [f"link {a} {b} lossless_peer lossless_peer" for a, b in pairs]
    body, posts, cuts, room = [], [], 0, MOST_FILE
    for a, b in pairs:
        for x, y in ((a, b), (b, a)):
            for number in range(r.choice([0, 1, 5, 60, 400, 2_000])):
                data = f"{number % 256:02x}" * r.choice([0, 0, 10, 900]) or "-"
                if room < 3_000 or len(posts) == 20_000:
                    break
                post = (x, y, r.choice([1, 2]), r.choice([64, 127, 255]), f"{number:04x} - {data}")
                line = "post {} {} {} {} {}".format(*post)
                posts.append(post)
                body.append(line)
                room -= len(line) + 1
            for _ in range(r.choice([0, 0, 1, 3, 8])):
                if cuts < MOST_CUTS:
                    body.append(f"cut {x} {y} {r.choice([0, 5, 30, 200, 400, 700, r.randrange(3_000), r.randrange(100_000)])}")
                    cuts += 1
    if r.random() < 0.3:
        body.append(f"dial {pairs[0][0]} {pairs[0][1]}")
    return lines + body, sorted_report(names, posts, fast), len(posts), cuts


def take_processors(seed):
    """Takes a processor away, now and then."""
    r = random.Random(seed)
    while True:
        until = time.monotonic() + r.choice([0.001, 0.02, 0.3])
        while time.monotonic() < until:
            pass
        time.sleep(r.choice([0.0005, 0.01, 0.1]))


def difference(program, path, report):
    """What is wrong about a run of this file, if anything is."""
    try:
        got = subprocess.run([program, "run", path], capture_output=True, text=True, timeout=SECONDS)
    except subprocess.TimeoutExpired:
        return f"not ended after {SECONDS} seconds"
    if (got.returncode, got.stderr) != (0, ""):
        return f"status {got.returncode}, {got.stderr.strip()!r}"
    if got.stdout != report:
        return f"{len(got.stdout.splitlines())} lines on standard output, {len(report.splitlines())} expected, or others"
    return None


def main():
    program, minutes = sys.argv[1], float(sys.argv[2])
    first = int(sys.argv[3]) if len(sys.argv) > 3 else 1
    thieves = [multiprocessing.Process(target=take_processors, args=(place,), daemon=True) for place in range(os.cpu_count())]
    for thief in thieves:
        thief.start()
    until, runs, posts, cuts, longest, of = time.monotonic() + 60 * minutes, 0, 0, 0, 0.0, first
    while runs == 0 or time.monotonic() < until:
        lines, report, its_posts, its_cuts = scenario(first + runs)
        with tempfile.NamedTemporaryFile("w", suffix=".scenario", delete=False) as file:
            file.write("\n".join(lines) + "\n")
        began = time.monotonic()
        said = difference(program, file.name, report)
        took = time.monotonic() - began
        if said:
            print(f"checks/soak.sh: seed {first + runs}, kept as {file.name}: {said}")
            return True
        os.remove(file.name)
        if took > longest:
            longest, of = took, first + runs
        runs, posts, cuts = runs + 1, posts + its_posts, cuts + its_cuts
    print(f"{runs} runs, {posts:,} messages, {cuts:,} cut lines; the longest took {longest:.1f} s, of seed {of}; each report as it should be")
    return False


if __name__ == "__main__":
    sys.exit(main())
