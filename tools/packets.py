"""The TCP connections of a capture, each direction put in order.

`packets_of(Input(file))` reads a pcap or pcapng file, or a pipe of one, by dpkt (Debian's package python3-dpkt), and gives the packets
of TCP; `Gathered` puts them together. Packets may be framed as Ethernet, with VLANs, as Linux's cooked ones of either version,
as BSD's loopback, or be bare IP; IPv4 and IPv6. The blocks of a pcapng file are read here: dpkt takes each of its packets for one of
the first interface, and others have other kinds of packets and another unit of time.
"""
import bisect
import collections
import heapq
import select
import struct
import sys

from file_kinds import FIRST, kind_of

DEBIAN = "/usr/lib/python3/dist-packages"  # where Debian's packages lie, for a Python that isn't Debian's
WINDOW, ALL = 1 << 31, 1 << 32  # of sequence numbers of TCP
PATIENCE = 3  # seconds that a pipe is waited for bytes that didn't come in order, as they are written once more where they were lost
HEAD, MOST_AT_ONCE = 64, 1 << 20  # bytes that tell a capture; that are read at once
LINKS = (0, 1, 12, 14, 101, 108, 113, 228, 229, 276)  # the numbers of tcpdump.org of the kinds of packets that are read
SECTION, INTERFACE, OLD_PACKET, ENHANCED_PACKET = 0x0A0D0D0A, 1, 2, 6  # blocks of a pcapng file
RESOLUTION, OFFSET = 9, 14  # options of an interface

Record = collections.namedtuple("Record", "time link data")  # a packet as a capture has it: its time, as seconds, its link type, its bytes


class BadCapture(Exception):
    """A file that is no capture, or one that can't be read."""


def load():
    """dpkt, wherever it is."""
    try:
        import dpkt
    except ImportError:
        sys.path.append(DEBIAN)
        try:
            import dpkt
        except ImportError:
            raise BadCapture("dpkt isn't there; on Debian the package python3-dpkt has it: apt-get install python3-dpkt") from None
    import dpkt.sll2
    return dpkt


class Packet:
    """One packet of TCP: when it was seen, from where to where, its first byte's number, its flags, its bytes; and whether it was
    recorded in part alone."""

    def __init__(self, time, source, target, seq, flags, data, in_part=False):
        self.time, self.source, self.target, self.seq, self.data, self.in_part = time, source, target, seq, data, in_part
        self.fin, self.syn, self.rst, self.ack = (bool(flags & bit) for bit in (1, 2, 4, 16))


def address(ip, port):
    if len(ip) == 4:
        return f"{'.'.join(map(str, ip))}:{port}"
    import ipaddress
    return f"[{ipaddress.IPv6Address(ip)}]:{port}"


class Input:
    """The bytes of a file or a pipe: each read gives as many as it asks for, but at the end. The first ones can be read again."""

    def __init__(self, file):
        self.file, self.given = file, b""
        self.waiting = self.more(FIRST)
        self.is_cut, self.ended = False, False  # it has ended inside what was asked for
        while 0 < len(self.waiting) < HEAD and (more := self.more(HEAD)):
            self.waiting += more
        self.first = self.waiting

    def more(self, size):
        try:
            return self.file.read(size) or b""
        except OSError as fault:
            raise BadCapture(fault.strerror) from None

    def read(self, size):
        parts, left = [], max(size, 0)
        while left:
            if not self.waiting:
                self.waiting = self.more(max(FIRST, min(left, MOST_AT_ONCE)))
                if not self.waiting:
                    break
            parts.append(self.waiting[:left])
            self.waiting = self.waiting[left:]
            left -= len(parts[-1])
        found = b"".join(parts)
        if len(self.given) < HEAD:
            self.given += found
        if len(found) < size:
            self.is_cut, self.ended = self.ended or bool(found), True
        return found

    def seek(self, place):
        """Back to the front, from somewhere in the first bytes: dpkt tries one form of captures, and then another one."""
        self.waiting, self.given = self.given + self.waiting, b""
        self.is_cut = self.ended = False

    def is_dry(self):
        """Nothing more has come by now."""
        return not self.waiting and not select.select([self.file], [], [], 0)[0]


def blocks_of(file):
    """The blocks of a pcapng file: how the numbers of each are read, its kind, its body."""
    order = "<"
    while len(head := file.read(8)) == 8:
        kind, front = struct.unpack(order + "I", head[:4])[0], b""
        if kind == SECTION:
            front = file.read(4)
            if len(front) < 4:
                return
            order = {b"\x4d\x3c\x2b\x1a": "<", b"\x1a\x2b\x3c\x4d": ">"}.get(front)
            if order is None:
                raise BadCapture("the capture is damaged or cut short: unknown endianness")
        length = struct.unpack(order + "I", head[4:])[0]
        if length < 12:
            raise BadCapture(f"the capture is damaged or cut short: a block of {length} bytes")
        body = front + file.read(length - 8 - len(front))
        if len(body) == length - 8:
            yield order, kind, body[:-4]


def interface_of(order, body):
    """Of an interface its link type, how many units of its time a second has, and how many seconds are added."""
    link, units, offset, at = struct.unpack_from(order + "H", body)[0], 1000000, 0, 8
    while at + 4 <= len(body):
        code, size = struct.unpack_from(order + "HH", body, at)
        value = body[at + 4 : at + 4 + size]
        if code == RESOLUTION and value:
            units = (2 if value[0] & 128 else 10) ** (value[0] & 127)
        if code == OFFSET and len(value) == 8:
            offset = struct.unpack(order + "q", value)[0]
        at += 4 + (size + 3) // 4 * 4
    return link, units, offset


def records_of_pcapng(file):
    interfaces = []
    for order, kind, body in blocks_of(file):
        if kind == SECTION:
            interfaces = []
        elif kind == INTERFACE:
            interfaces.append(interface_of(order, body))
        elif kind in (ENHANCED_PACKET, OLD_PACKET):
            number, high, low, size = struct.unpack_from(order + ("IIII" if kind == ENHANCED_PACKET else "HxxIII"), body)
            if number >= len(interfaces):
                raise BadCapture(f"the capture is damaged or cut short: a packet of interface {number}, of which nothing is said")
            link, units, offset = interfaces[number]
            yield Record(offset + ((high << 32) + low) / units, link, body[20 : 20 + size])


def records_of(dpkt, file):
    if int.from_bytes(file.first[:4], "big") == SECTION:
        yield from records_of_pcapng(file)
    else:
        reader = dpkt.pcap.UniversalReader(file)
        check_link(reader.datalink())
        for time, data in reader:
            yield Record(time, reader.datalink(), data)


def check_link(link):
    if link not in LINKS:
        raise BadCapture(f"its packets are those of link type {link}, and only Ethernet, Linux's cooked ones, loopback and bare IP are read")


def packets_of(file):
    """The packets of TCP of an Input that is a capture; what is none is passed over."""
    kind = kind_of(file.first)
    if kind is None or "capture of packets" not in kind:
        raise BadCapture(f"it is no pcap or pcapng file{': ' if kind else ''}{kind or ''}")
    dpkt = load()
    try:
        first = None
        for time, link, data in records_of(dpkt, file):
            check_link(link)
            first = time if first is None else first
            packet = tcp_of(dpkt, link, data)
            if packet:
                ip, tcp = packet
                ends = address(ip.src, tcp.sport), address(ip.dst, tcp.dport)
                yield Packet(float(time - first), *ends, tcp.seq, tcp.flags, bytes(tcp.data), is_in_part(ip))
        if file.is_cut:
            raise BadCapture("it ends inside a packet")
    except (OSError, BadCapture):
        raise
    except Exception as wrong:  # dpkt has no one kind of them for a bad file
        raise BadCapture(f"the capture is damaged or cut short: {wrong or type(wrong).__name__}") from None


def tcp_of(dpkt, link, data):
    """The IP and TCP layers of what was captured, or None."""
    kinds = {
        dpkt.pcap.DLT_EN10MB: dpkt.ethernet.Ethernet, dpkt.pcap.DLT_LINUX_SLL: dpkt.sll.SLL, dpkt.pcap.DLT_LINUX_SLL2: dpkt.sll2.SLL2,
        dpkt.pcap.DLT_NULL: dpkt.loopback.Loopback, dpkt.pcap.DLT_LOOP: dpkt.loopback.Loopback,
    }
    try:
        if link in kinds:
            ip = kinds[link](data).data
        else:
            ip = (dpkt.ip6.IP6 if data[:1] and data[0] >> 4 == 6 else dpkt.ip.IP)(data)
        if isinstance(ip, (dpkt.ip.IP, dpkt.ip6.IP6)) and isinstance(ip.data, dpkt.tcp.TCP):
            return ip, ip.data
    except Exception:  # a damaged packet is one of no TCP
        pass
    return None


def is_in_part(ip):
    """Whether the packet had more bytes than were recorded of it, as where tcpdump had an option -s."""
    return len(ip) < (ip.len if ip.v == 4 else 40 + ip.plen)


class Piece:
    """Bytes of one direction without a gap: at which place of the stream they begin, and when each came."""

    def __init__(self, start):
        self.start, self.data, self.ends, self.times = start, bytearray(), [], []

    def add(self, data, time):
        self.data += data
        self.ends.append(len(self.data))
        self.times.append(time)

    def time_of(self, count):
        """When so many bytes of it had come."""
        return self.times[min(bisect.bisect_left(self.ends, count), len(self.times) - 1)]


class Direction:
    """What one end sent."""

    def __init__(self, source):
        self.source, self.first, self.opened = source, None, False  # the number of its first byte; whether its SYN was seen
        self.pieces, self.next = [], 0
        self.pending, self.places = {}, []  # what came ahead of others, by its place; these places, as a heap
        self.again = 0  # bytes that came more than once
        self.fin = self.rst = None

    def take(self, packet):
        if packet.syn:
            self.opened, self.first = True, (packet.seq + 1) % ALL
        elif self.first is None:
            self.first = packet.seq
        if packet.fin and self.fin is None:
            self.fin = packet.time
        if packet.rst and self.rst is None:
            self.rst = packet.time
        if packet.data and not packet.syn:
            ahead = (packet.seq - self.first - self.next + WINDOW) % ALL - WINDOW
            self.put(self.next + ahead, packet.data, packet.time)

    def put(self, place, data, time):
        if place <= self.next:
            self.add(place, data, time)
            self.put_pending()
        elif place not in self.pending:
            heapq.heappush(self.places, place)
            self.pending[place] = data, time
        elif len(data) > len(self.pending[place][0]):
            self.pending[place] = data, time

    def put_pending(self):
        """Puts behind the others what isn't ahead any more."""
        while self.places and self.places[0] <= self.next:
            place = heapq.heappop(self.places)
            self.add(place, *self.pending.pop(place))

    def add(self, place, data, time):
        """Of bytes without a gap before them, those that aren't known yet."""
        known = min(len(data), self.next - place)
        self.again += known
        if known == len(data):
            return
        if not self.pieces or self.pieces[-1].start + len(self.pieces[-1].data) != self.next:
            self.pieces.append(Piece(self.next))
        self.pieces[-1].add(data[known:], time)
        self.next = place + len(data)

    def end(self, before=float("inf")):
        """What came before that moment and still waits lies behind gaps: the bytes between don't come any more."""
        while self.places and self.pending[self.places[0]][1] < before:
            self.next = self.places[0]
            self.put_pending()


class Connection:
    """Two ends, the one that opened it first; where that wasn't seen, the one that sent first."""

    def __init__(self, number, packet):
        opener = packet.target if packet.syn and packet.ack else packet.source
        acceptor = packet.source if opener == packet.target else packet.target
        self.number, self.time = number, packet.time
        self.ends = {opener: Direction(opener), acceptor: Direction(acceptor)}
        self.opener, self.acceptor = opener, acceptor

    def take(self, packet):
        self.ends[packet.source].take(packet)

    def is_new(self, packet):
        """The packet opens another connection of the same two addresses."""
        end = self.ends[packet.source]
        return packet.syn and not packet.ack and (end.opened and end.first != (packet.seq + 1) % ALL or not end.opened and end.first is not None)


class Gathered:
    """The connections of the packets that came so far, in the order of their first ones."""

    def __init__(self):
        self.all, self.current, self.in_part = [], {}, 0

    def take(self, packet):
        self.in_part += packet.in_part
        pair = frozenset((packet.source, packet.target))
        if pair not in self.current or self.current[pair].is_new(packet):
            self.current[pair] = Connection(len(self.all), packet)
            self.all.append(self.current[pair])
        self.current[pair].take(packet)

    def end(self, before=float("inf")):
        """No packet comes any more that should have come before that moment."""
        for connection in self.all:
            for direction in connection.ends.values():
                direction.end(before)
