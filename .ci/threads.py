"""Runs scenarios by `msgr2 run` over the system's sockets, and compares status, standard output and standard error with what
the rules give: the sorted report of all posts where everything comes over, whatever is cut, crosses or waits for a throttle;
the node that couldn't listen; how many posts are left where a node is off; and the byte that no node has written where a
stranger asks under a node's address.

No clause says that a run ends, that threads run beside one another, or that the system's sockets bring anything over: these
runs show it. Ports are those that the system gave a moment before. The program is the one that rt ci built.
"""
import os, random, socket, struct, subprocess, sys, tempfile, threading, time

TOP = os.path.dirname(os.path.dirname(os.path.abspath(__file__)))
sys.dont_write_bytecode = True

SECONDS = 120


def ports(count):
    """As many ports of the loopback as that which nobody uses now."""
    held = [socket.socket() for _ in range(count)]
    for one in held:
        one.bind(("127.0.0.1", 0))
    numbers = [one.getsockname()[1] for one in held]
    for one in held:
        one.close()
    return numbers


def run(program, lines):
    with tempfile.TemporaryDirectory() as folder:
        path = os.path.join(folder, "case.scenario")
        with open(path, "w") as file:
            file.write("\n".join(lines) + "\n")
        got = subprocess.run([program, "run", path], capture_output=True, text=True, timeout=SECONDS)
    return got.returncode, got.stdout, got.stderr


def nodes(names, options=()):
    """Their lines, and their ports."""
    at = ports(len(names))
    extra = dict(options)
    return [f"node {n} osd 127.0.0.1:{p}/{i + 1}{extra.get(n, '')}" for i, (n, p) in enumerate(zip(names, at))], at


def sorted_report(names, posts, fast=()):
    """The report of these posts, (from, to, kind, priority, text), where all were dispatched: node by node, of each in the order
    of its peers, of each peer the greatest priority first, and at once before the queue."""
    lines = []
    for to in names:
        for peer in names:
            mine = [p for p in posts if p[0] == peer and p[1] == to]
            for priority in sorted({p[3] for p in mine}, reverse=True):
                for path in ("fast", "queued"):
                    lines += [f"{to} from {peer} {priority} {path} {p[2]} {p[4]}" for p in mine
                              if p[3] == priority and ((to in fast and p[2] == 2) == (path == "fast"))]
    return "".join(f"{line}\n" for line in lines)


# ---- cases: each gives lines, and the status, output and error that are expected


def three_nodes():
    names = ["a", "b", "c"]
    lines, _ = nodes(names, {"b": " centers 2", "c": " centers 4"}.items())
    pairs = [("a", "b"), ("a", "c"), ("b", "c")]
    lines += [f"link {a} {b} lossless_peer lossless_peer" for a, b in pairs]
    posts = [(x, y, 1, 127, f"{i:04x} - -") for a, b in pairs for x, y in ((a, b), (b, a)) for i in range(100)]
    lines += [f"post {x} {y} {kind} {priority} {text}" for x, y, kind, priority, text in posts]
    lines += ["cut a b 2000", "cut b a 5000", "cut a c 300", "cut c b 0"]
    return lines, 0, sorted_report(names, posts), ""


def at_random(seed):
    """Nodes and links at random, with priorities, kinds that are dispatched at once, throttles, several centers and cuts."""
    r = random.Random(seed)
    names = [f"n{i}" for i in range(r.choice([2, 3, 4]))]
    fast = {n for n in names if r.random() < 0.4}
    options = {n: (" fast 2" if n in fast else "") + (f" throttle {r.choice([1, 50, 300])}" if r.random() < 0.4 else "")
               + (f" centers {r.randint(1, 4)}" if r.random() < 0.7 else "") for n in names}
    lines, _ = nodes(names, options.items())
    pairs = [(a, b) for i, a in enumerate(names) for b in names[i + 1:] if len(names) == 2 or r.random() < 0.8] or [(names[0], names[1])]
    lines += [f"link {a} {b} lossless_peer lossless_peer" for a, b in pairs]
    posts = []
    for a, b in pairs:
        for x, y in ((a, b), (b, a)):
            for i in range(r.choice([0, 1, 5, 60])):
                data = f"{i % 256:02x}" * r.choice([0, 0, 10, 900]) or "-"
                posts.append((x, y, r.choice([1, 2]), r.choice([64, 127, 255]), f"{i:04x} - {data}"))
            lines += [f"cut {x} {y} {r.choice([0, 5, 30, 200, 400, r.randrange(3000)])}" for _ in range(r.choice([0, 1, 2]))]
    lines += [f"post {x} {y} {kind} {priority} {text}" for x, y, kind, priority, text in posts]
    return lines, 0, sorted_report(names, posts, fast), ""


def nothing_to_do():
    return nodes(["a", "b"])[0], 0, "", ""


def a_post_and_a_mark():
    """A link that a line marks down counts no post, and the run comes to the mark."""
    lines, _ = nodes(["a", "b"])
    return lines + ["link a b lossless_peer lossless_peer", "post a b 1 127 61 - -", "down a b"], 0, None, ""


def a_node_is_off():
    lines, _ = nodes(["a", "b"], {"a": " centers 3", "b": " centers 2"}.items())
    lines += ["link a b lossless_peer lossless_peer", "off b", "limit 200", "post a b 1 127 61 - -", "post a b 1 127 62 - -"]
    return lines, 7, "", "stalled: 2 left\n"


def a_bad_line():
    return nodes(["a"])[0] + ["off z"], 2, "", None


def a_port_is_taken():
    taken = socket.socket()
    taken.bind(("127.0.0.1", 0))
    taken.listen()
    lines, _ = nodes(["a"])
    lines.append(f"node b osd 127.0.0.1:{taken.getsockname()[1]}/2")
    return lines, 5, "", "bind fault: b\n", taken


# ---- a stranger

TABLE = []
for value in range(256):
    for _ in range(8):
        value = (value >> 1) ^ 0x82F63B78 if value & 1 else value >> 1
    TABLE.append(value)


def crc(data, start=0xFFFFFFFF):
    for byte in data:
        start = (start >> 8) ^ TABLE[(start ^ byte) & 255]
    return start


def frame(tag, payload):
    head = (bytes([tag, 1]) + struct.pack("<IH", len(payload), 8) + bytes(20))[:28]
    return head + struct.pack("<I", crc(head, 0)) + (payload + struct.pack("<I", crc(payload)) if payload else b"")


def address(port, nonce):
    return bytes([1, 1, 1]) + struct.pack("<IIIIH", 28, 2, nonce, 16, 2) + struct.pack(">H", port) + bytes([127, 0, 0, 1]) + bytes(8)


def ask(mine, target, told):
    """Shakes hands at a node under another's address, as soon as it listens. Puts its own port into `told`."""
    for _ in range(100):
        try:
            end = socket.create_connection(("127.0.0.1", target[0]), timeout=5)
            break
        except OSError:
            time.sleep(0.02)
    else:
        return
    told.append(end.getsockname()[1])
    end.sendall(b"ceph v2\n" + struct.pack("<HQQ", 16, 1, 1))
    end.sendall(frame(1, bytes([4]) + address(*target)) + frame(2, struct.pack("<IIII", 1, 1, 1, 0)) + frame(7, bytes(32)))
    ident = bytes([2]) + struct.pack("<I", 1) + address(*mine) + address(*target) + struct.pack("<q", 0)
    end.sendall(frame(8, ident + struct.pack("<QQQQQ", 999, 2**64 - 1, 0, 0, 0x0100010000000001)))
    try:
        while end.recv(65536):
            pass
    except OSError:
        pass
    end.close()


def a_stranger_asks(program):
    """What is wrong where a stranger asks at b under the address of a: the run names a byte on the stranger's socket."""
    lines, at = nodes(["a", "b", "c"], {"b": " centers 2"}.items())
    lines += ["link a b lossless_peer lossless_peer", "link a c lossless_peer lossless_peer", "off c", "limit 4000", "post a c 1 127 61 - -"]
    told = []
    stranger = threading.Thread(target=ask, args=((at[0], 1), (at[1], 2), told))
    stranger.start()
    status, out, err = run(program, lines)
    stranger.join()
    wanted = f"unfit: socket {told[0]}-{at[1]} place " if told else "a stranger that got through"
    if status != 6 or out or not err.startswith(wanted):
        return [f"a_stranger_asks: status {status}, {err!r}, not {wanted!r}"]
    return []


def a_stranger_says_nothing(program):
    """What is wrong where a stranger keeps a socket open on which it says nothing: the run stalls as it would without it."""
    lines, at = nodes(["a", "b"], {"a": " centers 2"}.items())
    lines += ["link a b lossless_peer lossless_peer", "off b", "limit 300", "post a b 1 127 61 - -"]
    stranger = threading.Thread(target=keep_still, args=(at[0],))
    stranger.start()
    got = run(program, lines)
    stranger.join()
    return [] if got == (7, "", "stalled: 1 left\n") else [f"a_stranger_says_nothing: {got}"]


def keep_still(port):
    """Opens a socket to a port, as soon as somebody listens there, and reads until it ends."""
    for _ in range(100):
        try:
            with socket.create_connection(("127.0.0.1", port), timeout=20) as end:
                while end.recv(65536):
                    pass
            return
        except ConnectionRefusedError:
            time.sleep(0.02)
        except OSError:
            return


def objections(program, name, case):
    lines, status, out, err = case[:4]
    try:
        got = run(program, lines)
    except subprocess.TimeoutExpired:
        return [f"{name}: not ended after {SECONDS} seconds"]
    found = []
    if got[0] != status:
        found.append(f"{name}: status {got[0]}, not {status} ({got[2].strip()})")
    if out is not None and got[1] != out:
        found.append(f"{name}: {len(got[1].splitlines())} lines on standard output, {len(out.splitlines())} expected, or others")
    if err is not None and got[2] != err:
        found.append(f"{name}: {got[2]!r} on standard error, not {err!r}")
    return found


def main():
    program = sys.argv[1] if len(sys.argv) > 1 else os.path.join(TOP, "crates", "msgr2", "out", "msgr2")
    cases = {case.__name__: case() for case in (three_nodes, nothing_to_do, a_post_and_a_mark, a_node_is_off, a_bad_line, a_port_is_taken)}
    cases |= {f"at_random {seed}": at_random(seed) for seed in range(6)}
    found = [line for name, case in cases.items() for line in objections(program, name, case)]
    found += a_stranger_asks(program) + a_stranger_says_nothing(program)
    for line in found:
        print(f".ci/threads.py: {line}")
    print(f"runs on threads: {len(cases) + 2}, not as expected: {len(found)}")
    return bool(found)


if __name__ == "__main__":
    sys.exit(main())
