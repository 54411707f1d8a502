"""Times bytes over a loopback socket through m2_mio, beside a C program that does the same, one that keeps a log of all
bytes too, and m2_mem_fabric, in one go and in turn."""
import os, subprocess, sys, tempfile

sys.dont_write_bytecode = True  # nothing is left in this folder
import copy_crates

RUNS = 7
# bytes a piece, pieces a turn, bytes in all, the wanted rate over C's, which writes and reads each piece by itself
ROWS = [(128, 1, 16_384_000, 0.6), (128, 512, 65_536_000, 2.0), (65_536, 1, 131_072_000, 0.8)]
FIRST_PORT = 21_800
CRATES = ["m2_bytes", "m2_addr", "m2_edge", "m2_fabric"]
SYSTEM = ("m2_mio", "MioFabric::new(rt, alloc)")
THREADS = ("m2_mem_fabric", "MemFabric::new(rt, alloc)?")  # the same program over sockets in memory
BENCH = os.path.dirname(os.path.abspath(__file__))


def build(folder, fabric):
    """The proved program, built beside copies of the crates that it stands on."""
    crates = [*CRATES, fabric[0]]
    copy_crates.copy(folder, crates)
    source = os.path.join(folder, "crates", "m2_loopback", "src")
    os.makedirs(source)
    with open(os.path.join(BENCH, "loopback.rt.txt"), encoding="utf-8") as file:
        text = file.read().replace(SYSTEM[1], fabric[1])
    text = text.replace("use m2_mio::MioFabric;", f"use {fabric[0]}::{fabric[1].split(':')[0]};")
    with open(os.path.join(source, "main.rt"), "w", encoding="utf-8") as file:
        file.write(text)
    with open(os.path.join(folder, "crates.txt"), "a", encoding="utf-8") as file:
        file.write("m2_loopback: " + " ".join(crates) + "\n")
    subprocess.run(["git", "init", "-q", folder], check=True)
    crate = os.path.join(folder, "crates", "m2_loopback")
    words = ["rt", "run", "--", str(FIRST_PORT), "128", "1", "1"]
    done = subprocess.run(words, cwd=crate, stdout=subprocess.PIPE, stderr=subprocess.STDOUT, text=True)
    program = os.path.join(crate, "out", "m2_loopback")
    if done.returncode != 0 or not os.path.exists(program):
        sys.exit(done.stdout)
    return program


def run(program, *words):
    """Seconds of one run, by its own clock."""
    words = [program, *map(str, words)]
    return int(subprocess.run(words, stdout=subprocess.PIPE, check=True, text=True).stdout) / 1e9


def main():
    with tempfile.TemporaryDirectory() as folder:
        inner = os.path.join(folder, "threads")
        os.mkdir(inner)
        programs = [build(folder, SYSTEM)]
        for name, flags in [("plain", []), ("logged", ["-DLOG"])]:
            programs.append(os.path.join(folder, name))
            words = [os.environ.get("CC", "cc"), "-O2", *flags, "-o", programs[-1], os.path.join(BENCH, "loopback.c")]
            subprocess.run(words, check=True)
        programs.append(build(inner, THREADS))
        print("bytes a piece   pieces a turn   MB/s   over C   over C with a log   in memory, MB/s")
        port = FIRST_PORT
        for size, times, total, wanted in ROWS:
            count = total // size
            best = [float("inf")] * len(programs)
            for _ in range(RUNS):
                for i, program in enumerate(programs):
                    port += 1
                    words = [size, count] if 0 < i < 3 else [size, times, count // times]
                    best[i] = min(best[i], run(program, port, *words))
            ours, plain, logged, memory = best
            mark = "" if plain / ours >= wanted else "   missed"
            print(f"{size:13,} {times:15,} {count * size / 1e6 / ours:6.0f} {plain / ours:8.2f} {logged / ours:19.2f} {count * size / 1e6 / memory:17.0f}{mark}")


main()
