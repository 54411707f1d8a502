"""Strangers at the ports of `msgr2 run`, over the loopback: what a node answers them, that its links carry on meanwhile, and
that its memory stays below the bound of docs/PROTOCOL.md, "What a socket costs a node".

A run under siege has two nodes, a and b, that post to each other, and a post to c, which is off, so that it goes on until its
limit. Strangers come to the port of b, or of d, which has no link. Whatever they do under no peer's address, the run ends with
status 7 and the whole report of a and b. Under a peer's address it ends with status 6, the byte is on a socket of theirs, and
nothing is printed. And `sim` dispatches a post once wherever its first socket is cut.

Ports are those that the system gave a moment before. The program is the one that rt ci built.
"""
import os, re, resource, socket, struct, subprocess, sys, tempfile, threading, time

TOP = os.path.dirname(os.path.dirname(os.path.abspath(__file__)))
sys.dont_write_bytecode = True
sys.path.insert(0, os.path.join(TOP, ".ci"))
from threads import address, crc, frame, nodes, sorted_report

SECONDS = 60  # of one run
PATIENCE = 5  # seconds until an answer is there
BANNER = b"ceph v2\n" + struct.pack("<HQQ", 16, 1, 1)
HELLO, AUTH_REQUEST, AUTH_BAD_METHOD, AUTH_DONE, AUTH_SIGNATURE = 1, 2, 3, 6, 7
CLIENT_IDENT, SERVER_IDENT, SESSION_RECONNECT, SESSION_RESET = 8, 9, 11, 12
OSD = 4
NOBODY = (1, 77)  # the port and nonce of no node
COOKIE = 0x0100010000000001
LIMIT = 3_000  # milliseconds, of a run under siege: more than what strangers do in it takes, also on a busy machine
LONG = 6_000  # of one in which strangers do several things in turn
SHORT = 1_500  # of one in which they send much, all of which is looked at in the end

# docs/PROTOCOL.md, "What a socket costs a node": bytes at most for each socket, for each byte that came on it or went out, and
# for each read or write there.
A_SOCKET, A_BYTE, A_MOVE = 300_000, 8, 192
MOST_HALVES = 64


# ---- what strangers say


def preamble(tag, lengths):
    """That of a frame with these segments."""
    head = bytes([tag, len(lengths)]) + b"".join(struct.pack("<IH", n, 8) for n in lengths)
    head = head.ljust(28, b"\0")
    return head + struct.pack("<I", crc(head, 0))


def hello(to):
    return frame(HELLO, bytes([OSD]) + address(*to))


def request(method=1, modes=(1,)):
    return frame(AUTH_REQUEST, struct.pack("<II", method, len(modes)) + struct.pack(f"<{len(modes)}I", *modes) + struct.pack("<I", 0))


def ident(mine, to, number=999, cookie=COOKIE):
    names = bytes([2]) + struct.pack("<I", 1) + address(*mine) + address(*to)
    return frame(CLIENT_IDENT, names + struct.pack("<qQQQQQ", 0, number, 2**64 - 1, 0, 0, cookie))


def reconnect(mine, client, server, number=999, connect=1, seen=0):
    names = bytes([2]) + struct.pack("<I", 1) + address(*mine)
    return frame(SESSION_RECONNECT, names + struct.pack("<QQQQQ", client, server, number, connect, seen))


SIGNATURE = frame(AUTH_SIGNATURE, bytes(32))
DONE = frame(AUTH_DONE, struct.pack("<QII", 0, 1, 0)) + SIGNATURE
BAD_METHOD = frame(AUTH_BAD_METHOD, struct.pack("<IiIIII", 2, -95, 1, 1, 1, 1))
LARGE = 100_000_000  # bytes of a MESSAGE that is announced
MESSAGE = preamble(17, [41, 0, 0, LARGE])


class Stranger:
    """A socket to a node's port, as soon as somebody listens there."""

    def __init__(self, port):
        for _ in range(500):
            try:
                self.end = socket.create_connection(("127.0.0.1", port), timeout=PATIENCE)
                break
            except OSError:
                time.sleep(0.01)
        else:
            raise OSError(f"nobody listens at {port}")
        self.port = self.end.getsockname()[1]

    def say(self, *texts):
        try:
            self.end.sendall(b"".join(texts))
        except OSError:
            pass

    def hear(self, count):
        """The next so many bytes, or as many as there are before the end."""
        got = b""
        try:
            while len(got) < count:
                piece = self.end.recv(count - len(got))
                if not piece:
                    break
                got += piece
        except OSError:
            pass
        return got

    def is_closed(self):
        """Whether nothing comes but the end."""
        try:
            return self.end.recv(1) == b""
        except ConnectionError:
            return True
        except OSError:
            return False

    def is_open(self, seconds=0.2):
        """Whether nothing comes for a while, not the end either."""
        self.end.settimeout(seconds)
        try:
            self.end.recv(1)
            return False
        except TimeoutError:
            return True
        except OSError:
            return False
        finally:
            self.end.settimeout(PATIENCE)

    def close(self):
        self.end.close()


def greeting(stranger):
    """What a node writes on a banner: its own and HELLO."""
    return BANNER + frame(HELLO, bytes([OSD]) + address(stranger.port, 0))


# ---- a run under siege


class Siege:
    """A run of a, b and d, with so many event threads each, that goes on until its limit."""

    last = None

    def __init__(self, program, limit=LIMIT, posts=50, descriptors=None, centers=(1, 2, 4)):
        names = ["a", "b", "c", "d"]
        lines, ports = nodes(names, [(name, f" centers {count}") for name, count in zip(("a", "b", "d"), centers)])
        self.at = {name: (port, i + 1) for i, (name, port) in enumerate(zip(names, ports))}
        links = [("a", "b"), ("a", "c"), ("b", "c")]
        lines += [f"link {x} {y} lossless_peer lossless_peer" for x, y in links] + ["off c"]
        posted = [(x, y, 1, 127, f"{i:04x} - -") for x, y in (("a", "b"), ("b", "a")) for i in range(posts)]
        lines += [f"post {x} {y} {kind} {priority} {text}" for x, y, kind, priority, text in posted]
        lines += [f"limit {limit}", "post a c 1 127 63 - -"]
        self.report = sorted_report(names, posted)
        self.room = tempfile.TemporaryDirectory()
        path = os.path.join(self.room.name, "case.scenario")
        with open(path, "w") as file:
            file.write("\n".join(lines) + "\n")
        self.out, self.err = (open(os.path.join(self.room.name, name), "w+") for name in ("out", "err"))
        self.began = time.monotonic()
        own = descriptors and (lambda: resource.setrlimit(resource.RLIMIT_NOFILE, (descriptors, descriptors)))
        self.process = subprocess.Popen([program, "run", path], stdout=self.out, stderr=self.err, preexec_fn=own)
        Siege.last = self
        self.watch = threading.Timer(SECONDS, self.process.kill)
        self.watch.start()

    def end(self):
        """Waits for it: its status, output, errors, megabytes at peak and seconds."""
        _, status, usage = os.wait4(self.process.pid, 0)
        self.watch.cancel()
        self.process.returncode = os.waitstatus_to_exitcode(status)
        texts = []
        for file in (self.out, self.err):
            file.seek(0)
            texts.append(file.read())
            file.close()
        self.room.cleanup()
        return self.process.returncode, *texts, usage.ru_maxrss * 1024, time.monotonic() - self.began

    def objections(self, what, most=None, may_be_unfit=False):
        """What is wrong about its end, where strangers came under no peer's address, or some may have come under one; most is the
        bound of its memory."""
        status, out, err, peak, seconds = self.end()
        found = []
        if may_be_unfit and status == 6 and not out and err.startswith("unfit: socket "):
            status, out, err = 7, self.report, "stalled: 1 left\n"
        if status != 7 or err != "stalled: 1 left\n":
            found.append(f"{what}: status {status}, {err.strip()!r}, after {seconds:.1f} s")
        if out != self.report:
            found.append(f"{what}: {len(out.splitlines())} lines on standard output, {len(self.report.splitlines())} expected, or others")
        if most is not None and peak > most:
            found.append(f"{what}: {peak:,} bytes at peak, above {most:,}")
        return found

    def unfit(self, what, strangers):
        """The same where strangers came under a peer's address: one of these sockets is named, each by the port that it comes
        from, where that is said, and the one that it goes to; and nothing is printed."""
        status, out, err, _, seconds = self.end()
        named = re.fullmatch(r"unfit: socket ([0-9]+)-([0-9]+) place [0-9]+\n", err)
        at_one = named and any(str(port) in ("", named[1]) and str(to) == named[2] for port, to in strangers)
        if status != 6 or out or not at_one:
            return [f"{what}: status {status}, {len(out)} bytes printed, {err.strip()!r}, after {seconds:.1f} s; strangers at {strangers}"]
        return []


def peak_at_rest(program):
    """Bytes at peak of a run that no stranger comes to."""
    siege = Siege(program, limit=200)
    return siege.end()[3]


# ---- what a server's half answers


def rows(to):
    """What is said behind a banner, piece by piece, what is answered behind the greeting, and whether the socket stays open."""
    other = bytearray(hello(to))
    other[40] ^= 1
    hi = hello(to)
    signed = [hi, request(), SIGNATURE]
    return {
        "HELLO twice": ([hi, hi], b"", False),
        "a MESSAGE behind the banner": ([MESSAGE], b"", False),
        "a MESSAGE behind HELLO": ([hi, MESSAGE], b"", False),
        "a MESSAGE behind AUTH_REQUEST": ([hi, request(), MESSAGE], DONE, False),
        "a MESSAGE behind the signature": ([*signed, MESSAGE], DONE, False),
        "another method, and then the one that is served": ([hi, request(2), request()], BAD_METHOD + DONE, True),
        "a signature of 31 bytes": ([hi, request(), frame(AUTH_SIGNATURE, bytes(31))], DONE, False),
        "a signature of 33 bytes": ([hi, request(), frame(AUTH_SIGNATURE, bytes(33))], DONE, False),
        "a signature that isn't zeros": ([hi, request(), frame(AUTH_SIGNATURE, bytes(31) + b"\1")], DONE, False),
        "a HELLO with a wrong checksum": ([bytes(other)], b"", False),
        "a control frame that is too long": ([preamble(HELLO, [1_048_577])], b"", False),
        "32 zero bytes": ([bytes(32)], b"", False),
        "half a preamble and silence": ([hi[:16]], b"", True),
        "an ident of nobody": ([*signed, ident(NOBODY, to)], DONE, False),
        "a reconnect of nobody": ([*signed, reconnect(NOBODY, 5, 6)], DONE, False),
        "an answer in place of an ask": ([*signed, frame(SESSION_RESET, b"\0")], DONE, False),
    }


def a_server_answers(program):
    """Each row on a socket of its own, in one run; beside them one socket that writes a byte now and then."""
    siege, found, left = Siege(program, limit=LONG), [], []
    to = siege.at["b"]
    slow = Stranger(to[0])
    text = BANNER + hello(to)
    for place, (name, (texts, answer, stays)) in enumerate(rows(to).items()):
        slow.say(text[place : place + 1])
        stranger = Stranger(to[0])
        stranger.say(BANNER, *texts)
        wanted = greeting(stranger) + answer
        got = stranger.hear(len(wanted))
        if got != wanted:
            found.append(f"a_server_answers: {name}: {len(got)} bytes, {len(wanted)} expected, or others")
        elif stays and not stranger.is_open(0.05) or not stays and not stranger.is_closed():
            found.append(f"a_server_answers: {name}: the socket is {'closed' if stays else 'open'}")
        left.append(stranger)
    wrong = Stranger(to[0])
    wrong.say(b"ceph v1\n")
    if wrong.hear(26) != BANNER or not wrong.is_closed():
        found.append("a_server_answers: another banner isn't refused")
    if slow.hear(26) != BANNER or not slow.is_open(0.05):
        found.append("a_server_answers: a socket that writes a byte at a time isn't kept")
    return found + siege.objections("a_server_answers")


def sixty_five_sockets(program):
    """Of 65 sockets that never write 64 get a banner and stay open, and one is closed without a word; once they are gone
    another one is greeted."""
    siege, found = Siege(program, limit=LONG), []
    port = siege.at["d"][0]
    crowd = [Stranger(port) for _ in range(MOST_HALVES + 1)]
    got = [one.hear(26) for one in crowd]
    kept = sum(text == BANNER for text in got)
    shut = [one for one, text in zip(crowd, got) if text == b""]
    if kept != MOST_HALVES or len(shut) != 1 or not shut[0].is_closed():
        found.append(f"sixty_five_sockets: {kept} greeted, {len(shut)} not")
    if not all(one.is_open(0.001) for one, text in zip(crowd, got) if text):
        found.append("sixty_five_sockets: one that was greeted is closed")
    for one in crowd:
        one.close()
    if not any(Stranger(port).hear(26) == BANNER for _ in range(20) if not time.sleep(0.05)):
        found.append("sixty_five_sockets: no socket is taken behind them")
    return found + siege.objections("sixty_five_sockets")


def what_strangers_hold(program):
    """64 sockets, each with a control frame of the greatest length but for its last byte: the memory stays below its bound."""
    rest = peak_at_rest(program)
    siege, found = Siege(program, limit=SHORT), []
    to = siege.at["d"]
    head = BANNER + preamble(HELLO, [1_048_576])
    text = head + bytes(1_048_575)
    crowd = [Stranger(to[0]) for _ in range(MOST_HALVES)]
    threads = [threading.Thread(target=one.say, args=(text,)) for one in crowd]
    for thread in threads:
        thread.start()
    for thread in threads:
        thread.join()
    if not all(one.hear(26) == BANNER for one in crowd):
        found.append("what_strangers_hold: one isn't greeted")
    moves = len(text) // 1_000
    most = rest + len(crowd) * (A_SOCKET + A_BYTE * len(text) + A_MOVE * moves)
    return found + siege.objections("what_strangers_hold", most)


# ---- under a peer's address


def asking(siege, at, *asks):
    """A stranger at the port of that node who has signed and asks so."""
    to = siege.at[at]
    stranger = Stranger(to[0])
    stranger.say(BANNER, hello(to), request(), SIGNATURE)
    stranger.hear(len(greeting(stranger) + DONE))
    stranger.say(*asks)
    return stranger, (stranger.port, to[0])


def answer(stranger):
    """The tag of the next control frame, or None at the end."""
    head = stranger.hear(32)
    if len(head) < 32:
        return None
    size = struct.unpack("<I", head[2:6])[0]
    stranger.hear(size + 4 if size else 0)
    return head[0]


def a_session_that_is_not_there(program):
    """A reconnect under c's address, which has no session: it is reset, and the byte is named."""
    siege = Siege(program)
    stranger, named = asking(siege, "b", reconnect(siege.at["c"], 5, 6))
    tag = answer(stranger)
    found = [] if tag == SESSION_RESET else [f"a_session_that_is_not_there: answered by {tag}"]
    return found + siege.unfit("a_session_that_is_not_there", [named])


def another_session(program):
    """A reconnect under a's address with cookies of no session of a's. What it is answered goes by where the session of a and b
    stands then, and so does the byte that is named: the stranger's, or one of theirs that waits for it."""
    siege = Siege(program)
    stranger, _ = asking(siege, "b", reconnect(siege.at["a"], 5, 6))
    tag = answer(stranger)
    found = [] if tag == SESSION_RESET else [f"another_session: answered by {tag}"]
    return found + siege.unfit("another_session", [("", siege.at[name][0]) for name in ("a", "b")])


def two_ask_at_once(program):
    """Two sockets that ask under c's address at once, with one cookie: both asks are judged, and one socket is kept."""
    siege = Siege(program)
    both = [asking(siege, "b") for _ in range(2)]
    for number, (stranger, _) in enumerate(both):
        stranger.say(ident(siege.at["c"], siege.at["b"], 999 + number))
    tags = sorted(answer(stranger) or 0 for stranger, _ in both)
    found = [] if tags in ([0, SERVER_IDENT], [SERVER_IDENT, SERVER_IDENT]) else [f"two_ask_at_once: answered by {tags}"]
    if sum(stranger.is_open(0.05) for stranger, _ in both) != 1:
        found.append("two_ask_at_once: not one socket is kept")
    return found + siege.unfit("two_ask_at_once", [named for _, named in both])


def a_cookie_comes_again(program):
    """One who asks under c's address, goes, and comes again with the same cookie and then with another: each is accepted."""
    siege, found, named = Siege(program), [], []
    for number, cookie in enumerate((COOKIE, COOKIE, COOKIE + 1)):
        stranger, it = asking(siege, "b", ident(siege.at["c"], siege.at["b"], 999 + number, cookie))
        tag = answer(stranger)
        if tag != SERVER_IDENT:
            found.append(f"a_cookie_comes_again: time {number}: answered by {tag}")
        stranger.close()
        named.append(it)
    return found + siege.unfit("a_cookie_comes_again", named)


def a_second_ident_in_ready(program):
    """One who listens for c writes SERVER_IDENT twice: the second one is a fault, and the socket is closed for it."""
    listener = socket.socket()
    siege = Siege(program)
    port = siege.at["c"][0]
    listener.setsockopt(socket.SOL_SOCKET, socket.SO_REUSEADDR, 1)
    listener.bind(("127.0.0.1", port))
    listener.listen()
    listener.settimeout(PATIENCE)
    found = []
    stranger = Stranger.__new__(Stranger)
    stranger.end, (_, stranger.port) = listener.accept()
    stranger.end.settimeout(PATIENCE)
    listener.close()
    stranger.say(BANNER, hello((stranger.port, 0)), DONE)
    heard = stranger.hear(26 + 72 + 52 + 68 + 159)
    names = bytes([2]) + struct.pack("<I", 1) + address(*siege.at["c"])
    server = frame(SERVER_IDENT, names + struct.pack("<qQQQQQ", 2, 5, 2**64 - 1, 0, 0, COOKIE))
    stranger.say(server)
    first = answer(stranger)
    if len(heard) != 377 or first != 17:
        found.append(f"a_second_ident_in_ready: {len(heard)} bytes before it and {first} behind")
    stranger.hear(1 + 13)  # the rest of the message: its front, and the epilogue
    if not stranger.is_open(0.05):
        found.append("a_second_ident_in_ready: more than the message came")
    stranger.say(server)
    if not stranger.is_closed():
        found.append("a_second_ident_in_ready: the socket stays open")
    return found + siege.unfit("a_second_ident_in_ready", [(stranger.port, port), (port, stranger.port)])


# ---- descriptors


def descriptors_come_back(program):
    """Strangers have all descriptors of the process for a while: no link goes on then, and each does once they are gone."""
    siege = Siege(program, limit=LIMIT, descriptors=18, centers=(1, 1, 1))
    crowd = [Stranger(siege.at["d"][0]) for _ in range(40)]
    greeted = sum(one.hear(26) == BANNER for one in crowd[:4])
    time.sleep(0.3)
    for one in crowd:
        one.close()
    found = siege.objections("descriptors_come_back")
    return found if greeted else [*found, "descriptors_come_back: no stranger was taken"]


def few_descriptors(program):
    """Whatever the number of descriptors that the process may have, a run of one post ends by its limit: a node can't listen, or
    nobody is connected, or the post comes."""
    found, ends = [], set()
    for most in range(4, 16):
        lines, _ = nodes(["a", "b"])
        lines += ["link a b lossless_peer lossless_peer", "limit 300", "post a b 1 127 61 - -"]
        with tempfile.NamedTemporaryFile("w", suffix=".scenario") as file:
            file.write("\n".join(lines) + "\n")
            file.flush()
            own = lambda: resource.setrlimit(resource.RLIMIT_NOFILE, (most, most))
            try:
                got = subprocess.run([program, "run", file.name], capture_output=True, text=True, timeout=SECONDS, preexec_fn=own)
            except subprocess.TimeoutExpired:
                found.append(f"few_descriptors: of {most}: not ended after {SECONDS} seconds")
                continue
        ends.add(got.returncode)
        if got.returncode not in (0, 5, 7) or bool(got.stdout) != (got.returncode == 0):
            found.append(f"few_descriptors: of {most}: status {got.returncode}, {got.stdout!r}, {got.stderr!r}")
    return found if ends >= {5, 7, 0} else [*found, f"few_descriptors: statuses {sorted(ends)} alone"]


# ---- cuts


def each_cut(program):
    """A post comes once wherever its first socket is cut: at its opener 719 bytes pass before the message, which has 91, and its
    acknowledgement, which has 44."""
    pair = "node a osd 127.0.0.1:7001/1\nnode b osd 127.0.0.1:7002/2\nlink a b lossless_peer lossless_peer\n"
    found = []
    with tempfile.TemporaryDirectory() as room:
        path = os.path.join(room, "case.scenario")
        for place in range(900):
            with open(path, "w") as file:
                file.write(pair + f"cut a b {place}\npost a b 1 127 61 - -\nsettle 60\n")
            got = subprocess.run([program, "sim", path], capture_output=True, text=True, timeout=SECONDS)
            if (got.returncode, got.stdout, got.stderr) != (0, "b from a 127 queued 1 61 - -\n", ""):
                found.append(f"each_cut: at {place}: status {got.returncode}, {got.stdout!r}, {got.stderr!r}")
    return found


CASES = (a_server_answers, sixty_five_sockets, what_strangers_hold, a_session_that_is_not_there, another_session, two_ask_at_once, a_cookie_comes_again,
         a_second_ident_in_ready, descriptors_come_back, few_descriptors, each_cut)


def main():
    program = sys.argv[1] if len(sys.argv) > 1 else os.path.join(TOP, "crates", "msgr2", "out", "msgr2")
    wanted = sys.argv[2:]
    found, ran = [], 0
    for case in CASES:
        if wanted and case.__name__ not in wanted:
            continue
        ran += 1
        try:
            found += case(program)
        except OSError as fault:
            found.append(f"{case.__name__}: {fault}")
            if Siege.last and Siege.last.process.returncode is None:
                found += Siege.last.objections(f"{case.__name__}: its run") or [f"{case.__name__}: its run ended as expected"]
    for line in found:
        print(f".ci/hostile.py: {line}")
    print(f"hostile runs: {ran}, not as expected: {len(found)}")
    return bool(found)


if __name__ == "__main__":
    sys.exit(main())
