"""Times how long nodes take to pass messages of one size (run_load/), in turn with a C program that writes and reads the same
frames over loopback connections (run_pair.c): over one connection, one message at a time, and over four. A scenario holds
20,000 posts at most, so that is how many each run has.

usage: run.py PROGRAM C_PROGRAM [MESSAGES [RUNS]]
"""
import os, socket, subprocess, sys

COUNT, RUNS = 20_000, 5
SIZES = (0, 16, 128, 1_024, 4_096)
MODES = ("loopback", "memory", "sim")
# Messages a second over one connection, one at a time, and the rate of four connections over that of one.
WANTED = {0: 900_000, 16: 750_000, 128: 600_000, 1_024: 280_000, 4_096: 200_000}
WANTED_ALONE, WANTED_FOUR = 31_000, 3.0
# Bytes of memory a message of 16 bytes; and times the payload at 4,096.
WANTED_MEMORY = {16: 700, 4_096: 3 * 4_096}


def first_port(count):
    """The first of so many ports in a row of which nobody uses one now."""
    for port in range(21_000 + os.getpid() % 9_000, 60_000, count):
        held = []
        try:
            for place in range(count):
                held.append(socket.socket())
                held[-1].bind(("127.0.0.1", port + place))
            return port
        except OSError:
            pass
        finally:
            for one in held:
                one.close()
    sys.exit("no ports are free")


def called(words):
    """What the program prints, and seconds of processor time."""
    process = subprocess.Popen([str(word) for word in words], stdout=subprocess.PIPE, text=True)
    printed = process.stdout.read()
    _, status, usage = os.wait4(process.pid, 0)
    process.returncode = os.waitstatus_to_exitcode(status)
    if process.returncode:
        sys.exit(f"{words}: status {process.returncode}")
    return [int(word) for word in printed.split()], usage.ru_utime + usage.ru_stime


class Ours:
    """The least of what some runs took, in seconds, and of their memory, in bytes."""

    def __init__(self, program, over, connections, count, size, throttle=0):
        self.words = [program, over, connections, count, size, throttle]
        self.call = self.turns = self.used = self.peak = float("inf")

    def run(self):
        (call, turns, left, peak), used = called([*self.words, first_port(2 * self.words[2])])
        if left:
            sys.exit(f"{self.words}: {left} posts left")
        self.call, self.turns = min(self.call, call / 1e9), min(self.turns, turns / 1e9)
        self.used, self.peak = min(self.used, used), min(self.peak, peak * 1024)


class Plain:
    """The same of the C program."""

    def __init__(self, program, connections, count, size, at_once):
        self.words = [program, count, size, connections, at_once]
        self.turns = self.used = float("inf")

    def run(self):
        (took, used), _ = called(self.words)
        self.turns, self.used = min(self.turns, took / 1e9), min(self.used, used / 1e9)


def mark(is_missed):
    return "   missed" if is_missed else ""


def main():
    program, plain = sys.argv[1:3]
    count = int(sys.argv[3]) if len(sys.argv) > 3 else COUNT
    runs = int(sys.argv[4]) if len(sys.argv) > 4 else RUNS
    nothing = {size: Ours(program, "nothing", 1, count, size) for size in SIZES}
    empty = Ours(program, "nothing", 1, 0, 0)
    ours = {(size, mode): Ours(program, mode, 1, count, size) for size in SIZES for mode in MODES}
    pairs = {(size, at_once): Plain(plain, 1, count, size, at_once) for size in SIZES for at_once in (1, 65_536)}
    alone = Ours(program, "loopback", 1, count, 16, 16)
    four = Ours(program, "loopback", 4, count, 16)
    four_plain = Plain(plain, 4, count, 16, 65_536)
    for _ in range(runs):
        for it in (empty, *nothing.values(), *ours.values(), *pairs.values(), alone, four, four_plain):
            it.run()
    print("best of", runs, "runs;", os.cpu_count(), "processors, load", " ".join(f"{it:.1f}" for it in os.getloadavg()))
    print(f"{count:,} messages over one connection; microseconds of processor time are those of both sides, planning, weaving and all")
    print(f"{'bytes':>6} {'over':>9} {'messages a second':>18} {'of the whole call':>18} {'us a message':>13} {'bytes of memory':>16} {'rate over C':>12} {'over C, 64 KiB':>15} {'time over C':>12} {'over C, 64 KiB':>15}")
    for size in SIZES:
        each, much = pairs[size, 1], pairs[size, 65_536]
        for mode in MODES:
            it = ours[size, mode]
            rate, memory = count / it.turns, (it.peak - empty.peak) / count
            used = it.used - nothing[size].used
            missed = mode == "loopback" and (rate < WANTED[size] or memory > WANTED_MEMORY.get(size, memory))
            print(f"{size:6,} {mode:>9} {rate:18,.0f} {count / it.call:18,.0f} {used / count * 1e6:13.2f} {memory:16,.0f} {each.turns / it.turns:12.2f} {much.turns / it.turns:15.2f} {used / each.used:12.2f} {used / much.used:15.2f}{mark(missed)}")
        for name, it in (("C", each), ("C, 64 KiB", much)):
            print(f"{size:6,} {name:>9} {count / it.turns:18,.0f} {'':18} {it.used / count * 1e6:13.2f}")
    rate = count / alone.turns
    print(f"16 bytes, a throttle of one message at the reader: {rate:,.0f} messages a second{mark(rate < WANTED_ALONE)}")
    over = ours[16, "loopback"].turns / four.turns
    print(f"16 bytes, four connections: {count / four.turns:,.0f} messages a second, {over:.2f} of one connection{mark(over < WANTED_FOUR)}; C, 64 KiB: {pairs[16, 65_536].turns / four_plain.turns:.2f}")


main()
