"""Shares of the time of `msgr2 sim` by what it is spent on, of the scenarios of sim.py: samples of perf, by the names of
functions. What the compiler has put inside another function counts as that one's; the checksum is inside the frames'."""
import collections, os, re, subprocess, sys, tempfile

sys.dont_write_bytecode = True  # nothing is left in this folder
import sim

GROUPS = [  # the first that fits
    ("pages from and to the system", r"\[k\]"),
    ("copies", r"memmove|memcpy|memset"),
    ("allocation", r"alloc|free"),
    ("frames with their checksums", r"m2_(frame|crc|message)\b"),
    ("handshake", r"m2_(handshake|trail|control|addr)\b"),
    ("reading the file, and the report", r"m2_(scenario|scenario_text|cli)\b"),
    ("sockets in memory", r"m2_(fabric|cluster|script)\b"),
    ("sessions", r"m2_\w+"),
    ("the rest", r""),
]
SAMPLE = re.compile(r"\s+([0-9.]+)%\s+\S+\s+\S+\s+(\[.\]\s+.*)")


def shares(program, text):
    """The percentage of each group in a run of this scenario."""
    with tempfile.TemporaryDirectory() as folder:
        file, data = os.path.join(folder, "a.scenario"), os.path.join(folder, "perf.data")
        with open(file, "w") as it:
            it.write(text)
        quiet = {"stdout": subprocess.DEVNULL, "stderr": subprocess.DEVNULL}
        subprocess.run(["perf", "record", "-q", "-F", "5000", "-o", data, program, "sim", file], check=True, **quiet)
        report = ["perf", "report", "-i", data, "--stdio", "--no-children", "-g", "none"]
        lines = subprocess.run(report, capture_output=True, text=True, check=True).stdout.splitlines()
    found = collections.Counter()
    for sample in filter(None, map(SAMPLE.match, lines)):
        found[next(name for name, words in GROUPS if re.search(words, sample[2]))] += float(sample[1])
    return found


def main():
    program = os.path.abspath(sys.argv[1])
    of = {"a pair, 64 faults": shares(program, sim.scenario(sim.POSTS)), "16 nodes": shares(program, sim.mesh(16))}
    print(f"{'':34}" + "".join(f"{name:>20}" for name in of))
    for name, _ in GROUPS:
        print(f"{name:34}" + "".join(f"{found[name]:19.1f}%" for found in of.values()))


main()
