#!/usr/bin/env python3
"""Writes random scenarios of `msgr2 sim`, in every form of line that it runs (docs/SCENARIOS.md).

usage: checks/scenarios.py FOLDER N SEED

The files are FOLDER/random_0001.scenario and so on. SEED and a file's place decide what is in it.
"""
import os, random, sys

PAIRS = (  # the policies that a link can have, lossless peers more often
    ("lossless_peer", "lossless_peer"),
    ("lossless_peer", "lossless_peer"),
    ("lossless_client", "stateful_server"),
    ("lossy_client", "stateless_server"),
)
NAMES = ("a", "b", "c", "osd_0", "client5", "x", "mds_of_16_chars_")
ENTITIES = ("mon", "mds", "osd", "client", "mgr")
PRIORITIES = (64, 127, 127, 196, 255)
THROTTLES = (1, 2, 5, 40, 400, 65536, 0)
KINDS = 4
MOST_FAULTS = MOST_CUTS = 64  # "Limits"
ALL = 1000000
# bytes behind each frame of an opener up to the first message
BOUNDARIES = (26, 52, 124, 196, 248, 300, 368, 436, 595, 719, 796)


class Scenario:
    """The nodes and links of a scenario, and its lines so far."""

    def __init__(self, draw):
        self.draw = draw
        self.lines = []
        self.faults = self.cuts = 0
        self.has_features = draw.random() < 0.1
        names = draw.sample(NAMES, draw.choice((2, 2, 2, 3, 4, 5)))
        for place, name in enumerate(names):
            self.add_node(place, name)
        every = [(a, b) for at, a in enumerate(names) for b in names[at + 1 :]]
        draw.shuffle(every)
        self.links = [draw.choice((link, link[::-1])) for link in every[: draw.randint(1, len(every))]]
        for a, b in self.links:
            first, second = draw.choice(PAIRS)
            if draw.random() < 0.5:
                first, second = second, first
            self.add(f"link {a} {b} {first} {second}")
        self.main = self.links[0]  # most lines speak of these two
        self.sockets = {frozenset(link): 1 for link in self.links}  # about how many were opened

    def add(self, *lines):
        self.lines += lines

    def add_node(self, place, name):
        """Addresses are in no order, so either end of a link may be the lower one."""
        draw = self.draw
        ip = draw.choice(("127.0.0.1", "127.0.0.1", "10.1.2.3", "9.255.0.77"))
        options = []
        if draw.random() < 0.4:
            kinds = [str(draw.randint(1, KINDS)) for _ in range(draw.randint(1, 2))]
            options.append(f"fast {','.join(kinds)}")
        if draw.random() < 0.3:
            options.append(f"throttle {draw.choice(THROTTLES)}")
        if self.has_features and draw.random() < 0.6:
            options.append(f"supports {draw.choice((1, 3, 5, 2**64 - 1))}")
        if self.has_features and draw.random() < 0.6:
            options.append(f"requires {draw.choice((0, 1, 4, 2**63))}")
        if draw.random() < 0.1:
            options.append(f"centers {draw.randint(1, 4)}")
        draw.shuffle(options)
        socket = f"{ip}:{draw.randint(1, 6000) * 10 + place}"
        words = ["node", name, draw.choice(ENTITIES), f"{socket}/{draw.choice((0, 1, 2, 3, 2**32 - 1))}", *options]
        self.add(" ".join(words))

    def ends(self):
        """Two nodes that a link joins, in either order."""
        link = self.main if self.draw.random() < 0.6 else self.draw.choice(self.links)
        return link if self.draw.random() < 0.5 else link[::-1]

    # ---- blocks of lines

    def begin(self):
        """The main link gets a session, of one connect or of two that cross."""
        a, b = self.ends()
        self.add(f"dial {a} {b}")
        if self.draw.random() < 0.2:
            self.add(f"dial {b} {a}")
        self.add(f"settle {self.draw.randint(5, 8)}")

    def part(self):
        """Some bytes, or none."""
        draw = self.draw
        if draw.random() < 0.5:
            return "-"
        count = draw.randint(1, 6) if draw.random() < 0.95 else draw.randint(100, 3000)
        digits = "".join(f"{draw.randint(0, 255):02x}" for _ in range(count))
        return digits.upper() if draw.random() < 0.2 else digits

    def post(self, a, b):
        draw = self.draw
        priority = draw.choice(PRIORITIES) if draw.random() < 0.9 else draw.randint(64, 255)
        self.add(f"post {a} {b} {draw.randint(1, KINDS)} {priority} {self.part()} {self.part()} {self.part()}")

    def posts(self, a, b):
        for _ in range(self.draw.choice((1, 1, 1, 2, 3, 12))):
            self.post(*((a, b) if self.draw.random() < 0.8 else (b, a)))

    def fault(self, a, b):
        if self.faults < MOST_FAULTS:
            self.faults += 1
            self.add(f"fault {a} {b}" if self.draw.random() < 0.5 else f"fault {a} {b} {self.socket(a, b)}")
            self.sockets[frozenset((a, b))] += 1

    def cut(self, a, b):
        if self.cuts < MOST_CUTS:
            self.cuts += 1
            at_frame = self.draw.choice(BOUNDARIES) + self.draw.choice((-1, 0, 0, 1))
            anywhere = self.draw.choice((self.draw.randint(0, 900), self.draw.randint(600, 3000), 2**20))
            after = self.draw.choice((at_frame, anywhere))
            self.add(f"cut {a} {b} {after}")

    def socket(self, a, b):
        """A socket near the newest one of the two."""
        return max(1, self.sockets[frozenset((a, b))] + self.draw.choice((-2, -1, -1, 0, 0, 1)))

    def flow(self, a, b):
        draw = self.draw
        if draw.random() < 0.4:
            self.add(f"flow {a} {b}")
        else:
            self.add(f"flow {a} {b} {self.socket(a, b)} {draw.choice((0, 26, 98, 200, 300, ALL, 2**64 - 1))}")

    def exchange(self, a, b):
        """One socket alone flows, as in a handshake: so connects and asks on others come late."""
        draw = self.draw
        socket = self.socket(a, b) if draw.random() < 0.5 else self.sockets[frozenset((a, b))]
        for _ in range(draw.randint(1, 6)):
            self.add(f"turn {a}", f"flow {a} {b} {socket} {ALL}", f"turn {b}", f"flow {b} {a} {socket} {ALL}")
        if draw.random() < 0.5:
            self.add(f"turn {a}")

    def lost_again(self, a, b):
        """a's socket breaks, maybe behind a message on its way, and a connects and asks again on the next one."""
        draw = self.draw
        if draw.random() < 0.5:
            self.post(a, b)
            self.add(f"turn {a}")
        self.fault(a, b)
        self.add(f"turn {a}")
        if draw.random() < 0.6:
            self.post(a, b)
        if draw.random() < 0.2:
            self.add(f"down {b} {a}")
        self.add(f"turn {a}")
        self.exchange(*draw.choice(((a, b), (a, b), (b, a))))

    def late_ask(self, a, b):
        """a's socket breaks twice, and its ask on the first of the two that follow comes behind that on the second."""
        draw = self.draw
        if self.faults + 2 > MOST_FAULTS:
            return
        self.faults += 2
        self.sockets[frozenset((a, b))] += 2
        newest = self.sockets[frozenset((a, b))]
        for socket, rounds in ((newest - 1, 2), (newest, draw.randint(2, 4))):
            if draw.random() < 0.3:
                self.post(a, b)
                self.add(f"turn {a}")
            self.add(f"fault {a} {b}", f"turn {a}")
            if draw.random() < 0.2:
                self.add(f"down {b} {a}")
            self.post(a, b)
            self.add(f"turn {a}")
            for _ in range(rounds):
                self.add(f"flow {a} {b} {socket} {ALL}", f"turn {b}", f"flow {b} {a} {socket} {ALL}", f"turn {a}")
        self.add(f"flow {a} {b} {newest - 1} {ALL}", f"turn {b}")

    def settle(self):
        self.add(f"settle {self.draw.choice((1, 1, 2, 3, 4, 6, 8, 12))}")

    def noise(self):
        self.add(self.draw.choice(("", "   ", "# fault z z 0", "#\r")))

    def block(self):
        a, b = self.ends()
        chance = self.draw.random()
        if chance < 0.20:
            self.posts(a, b)
        elif chance < 0.25:
            self.add(f"dial {a} {b}")
        elif chance < 0.37:
            self.add(f"turn {a}")
        elif chance < 0.43:
            self.fault(a, b)
        elif chance < 0.54:
            self.lost_again(a, b)
        elif chance < 0.57:
            self.add(f"down {a} {b}")
        elif chance < 0.60:
            self.cut(a, b)
        elif chance < 0.63:
            self.late_ask(a, b)
        elif chance < 0.74:
            self.exchange(a, b)
        elif chance < 0.83:
            self.flow(a, b)
        elif chance < 0.97:
            self.settle()
        else:
            self.noise()

    def many_posts(self):
        """More messages than a node queues in a turn, and more steps than a record takes in one."""
        a, b = self.ends()
        self.add(f"dial {a} {b}")
        if self.draw.random() < 0.7:
            self.add("settle 8")
        for _ in range(self.draw.choice((1100, 2100, 3000))):
            self.add(f"post {a} {b} {self.draw.randint(1, KINDS)} {self.draw.choice(PRIORITIES)} {self.part()[:2]} - -")
        self.add(f"turn {a}", f"flow {a} {b}", f"turn {b}")

    def many_sockets(self):
        """More sockets than a node has halves."""
        a, b = self.ends()
        self.post(a, b)
        for _ in range(MOST_CUTS - self.cuts):
            self.cuts += 1
            self.add(f"cut {a} {b} {self.draw.choice((0, 26, 26, 98))}")
        for _ in range(90):
            self.add(f"turn {a}")
            if self.draw.random() < 0.3:
                self.add(f"flow {a} {b}")
        for _ in range(3):
            self.add(f"turn {b}", f"flow {b} {a}", f"turn {a}")


def scenario(draw):
    it = Scenario(draw)
    for _ in range(draw.choice((0, 0, 1, 2, 3))):
        it.cut(*it.ends())
    if draw.random() < 0.5:
        it.begin()
    for _ in range(draw.choice((4, 8, 12, 16, 24, 40))):
        it.block()
    if draw.random() < 0.02:
        it.many_posts()
    if draw.random() < 0.02:
        it.many_sockets()
    # few rounds show when a message comes, many that it comes
    if draw.random() < 0.9:
        it.add(f"settle {draw.choice((1, 2, 3, 4, 5, 6, 7, 8, 9, 10, 16, 30, 30, 60))}")
    end = draw.choice(("\n", "\n", "\n", "\r\n"))
    gap = draw.choice((" ", " ", " ", "   "))
    return end.join(line.replace(" ", gap) for line in it.lines) + draw.choice((end, ""))


def main(words):
    if len(words) != 3:
        sys.exit(__doc__)
    folder, count, seed = words[0], int(words[1]), int(words[2])
    for place in range(1, count + 1):
        with open(os.path.join(folder, f"random_{place:04}.scenario"), "w", encoding="ascii", newline="") as file:
            file.write(scenario(random.Random(f"{seed}/{place}")))


if __name__ == "__main__":
    main(sys.argv[1:])
