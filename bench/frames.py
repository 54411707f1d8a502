"""Times `msgr2 frames` beside two C programs that do the same, in one go and in turn, on frames of one size a row."""
import filecmp, os, random, struct, subprocess, sys, tempfile, time

RUNS = 7
FILE = 64_000_000  # bytes of a row's file, about
WHOLE = [32, 100, 242, 1_670, 4_096, 1 << 20]  # bytes of a frame
LONG = 1 << 20  # bytes of the first segment of the frames of the last rows
SHORT_PIECE = 1_000  # bytes that a write to the pipe has there
WAIT, MESSAGE, COMPLETE = 16, 17, 14
HEADER = 41  # bytes of a message's first segment
OVERHEAD = 32 + HEADER + 4 + 13  # bytes of a message beside its data
ALIGNMENTS = [8, 8, 8, 4096]
WANTED = 0.8


def table():
    words = []
    for i in range(256):
        for _ in range(8):
            i = i >> 1 ^ (0x82F63B78 if i & 1 else 0)
        words.append(i)
    return words


TABLE = table()


def crc32c(seed, data):
    for byte in data:
        seed = seed >> 8 ^ TABLE[(seed ^ byte) & 255]
    return struct.pack("<I", seed)


def frame(tag, segments):
    """A frame's text by the format."""
    segments = [*segments, b"", b"", b""][:4]
    count = max((i + 1 for i, s in enumerate(segments) if s), default=1)
    lengths = b"".join(struct.pack("<IH", len(s), a if i < count else 0) for i, (s, a) in enumerate(zip(segments, ALIGNMENTS)))
    head = bytes([tag, count]) + lengths + bytes(2)
    text = head + crc32c(0, head)
    crcs = [crc32c(0xFFFFFFFF, s) if i < count else bytes(4) for i, s in enumerate(segments)]
    if segments[0]:
        text += segments[0] + crcs[0]
    return text if count == 1 else text + b"".join(segments[1:]) + bytes([COMPLETE]) + b"".join(crcs[1:])


def of_size(size):
    """A frame of so many bytes: a WAIT of 32, or a message with a header and random data."""
    return frame(WAIT, [b""]) if size == 32 else frame(MESSAGE, [bytes(HEADER), b"", b"", random.randbytes(size - OVERHEAD)])


def run(words, out, stdin=None):
    """Seconds, and megabytes at peak, of one run."""
    start = time.perf_counter()
    child = os.fork()
    if child == 0:
        os.dup2(os.open(out, os.O_WRONLY | os.O_CREAT | os.O_TRUNC, 0o600), 1)
        if stdin is not None:
            os.dup2(stdin, 0)
        os.execvp(words[0], words)
    _, status, usage = os.wait4(child, 0)
    took = time.perf_counter() - start
    if status != 0:
        sys.exit(f"{words}: status {os.waitstatus_to_exitcode(status)}")
    return took, usage.ru_maxrss / 1024


def in_turn(programs, capture, folder):
    """The best seconds of each program, and the megabytes at peak, the programs in turn."""
    outs = [os.path.join(folder, f"out{i}") for i in range(len(programs))]
    rounds = [[run([*words, capture], out) for words, out in zip(programs, outs)] for _ in range(RUNS)]
    for out in outs[1:]:
        if not filecmp.cmp(outs[0], out, shallow=False):
            sys.exit("the listings differ")
    return [(min(r[i][0] for r in rounds), min(r[i][1] for r in rounds)) for i in range(len(programs))]


def system_calls(words, folder):
    """How many system calls a run makes, by strace."""
    log = os.path.join(folder, "calls")
    subprocess.run(["strace", "-f", "-c", "-o", log, *words], stdout=subprocess.DEVNULL, check=True)
    with open(log, encoding="utf-8") as file:
        total = file.read().splitlines()[-1].split()
    return int(total[3])  # of: share, seconds, microseconds a call, calls, and maybe errors


def from_pipe(program, text, piece):
    """Seconds for a file that comes through a pipe, so many bytes a write."""
    reading, writing = os.pipe()
    feeder = os.fork()
    if feeder == 0:
        os.close(reading)
        for at in range(0, len(text), piece):
            os.write(writing, text[at : at + piece])
        os._exit(0)
    os.close(writing)
    took, _ = run([program, "frames", "/dev/stdin"], "/dev/null", reading)
    os.close(reading)
    os.waitpid(feeder, 0)
    return took


def main():
    program = os.path.abspath(sys.argv[1])
    source = os.path.join(os.path.dirname(os.path.abspath(__file__)), "list_frames.c")
    random.seed(1)
    with tempfile.TemporaryDirectory() as folder:
        names = {"by_one": [], "by_eight": ["-DEIGHT"]}
        for name, flags in names.items():
            words = [os.environ.get("CC", "cc"), "-O2", *flags, "-o", os.path.join(folder, name), source]
            subprocess.run(words, check=True)
        programs = [[program, "frames"], *([os.path.join(folder, name)] for name in names)]
        capture = os.path.join(folder, "capture.frames")
        print("bytes a frame   MB/s   over C, a byte a step   over C, eight bytes a step   MB at peak   calls a frame")
        for size in WHOLE:
            count = max(1, FILE // size)
            text = of_size(size)
            assert len(text) == size
            with open(capture, "wb") as file:
                for _ in range(count):
                    file.write(text)
            (ours, peak), (one, _), (eight, _) = in_turn(programs, capture, folder)
            calls = system_calls(programs[0] + [capture], folder) / count
            wanted = one if size <= 100 else eight
            mark = "" if wanted / ours >= WANTED else "   missed"
            print(f"{size:13,} {count * size / 1e6 / ours:6.0f} {one / ours:23.2f} {eight / ours:28.2f} {peak:12.1f} {calls:15.4f}{mark}")
        text = of_size(32) + frame(MESSAGE, [random.randbytes(LONG)]) * 8
        pieces = min(from_pipe(program, text, SHORT_PIECE) for _ in range(RUNS))
        whole = min(from_pipe(program, text, 1 << 16) for _ in range(RUNS))
        print(f"first segments of {LONG:,} bytes through a pipe, in pieces of {SHORT_PIECE:,} bytes: {pieces:.3f} s; in pieces of 65,536: {whole:.3f} s")


if __name__ == "__main__":
    main()
