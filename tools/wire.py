"""The wire of docs/PROTOCOL.md in bytes: banners and frames as they are written, and as they are read.

It knows the page's chapters "Frames", "The banner", "Addresses" and "Control payloads", and nothing of sessions.
"""
import functools

BANNER = 0  # no tag: the banner counts as the first frame of a stream
HELLO, AUTH_REQUEST, AUTH_BAD_METHOD, AUTH_DONE, AUTH_SIGNATURE = 1, 2, 3, 6, 7
CLIENT_IDENT, SERVER_IDENT, MISSING_FEATURES, RECONNECT, RESET, RETRY, RETRY_GLOBAL, RECONNECT_OK, WAIT = range(8, 17)
MESSAGE, KEEPALIVE2, KEEPALIVE2_ACK, ACK = 17, 18, 19, 20
PREAMBLE, EPILOGUE, HEADER, BANNER_TEXT, COMPLETE, ABORTED, EMPTY = 32, 13, 41, b"ceph v2\n", 0x0E, 0x01, 0xFFFFFFFF
NO_METHOD, CRC_MODE, MSGR2, REVISION_1 = 1, 1, 2, 1
NAMES = {
    BANNER: "banner", HELLO: "HELLO", AUTH_REQUEST: "AUTH_REQUEST", AUTH_BAD_METHOD: "AUTH_BAD_METHOD", AUTH_DONE: "AUTH_DONE",
    AUTH_SIGNATURE: "AUTH_SIGNATURE", CLIENT_IDENT: "CLIENT_IDENT", SERVER_IDENT: "SERVER_IDENT",
    MISSING_FEATURES: "IDENT_MISSING_FEATURES", RECONNECT: "SESSION_RECONNECT", RESET: "SESSION_RESET", RETRY: "SESSION_RETRY",
    RETRY_GLOBAL: "SESSION_RETRY_GLOBAL", RECONNECT_OK: "SESSION_RECONNECT_OK", WAIT: "WAIT", MESSAGE: "MESSAGE",
    KEEPALIVE2: "KEEPALIVE2", KEEPALIVE2_ACK: "KEEPALIVE2_ACK", ACK: "ACK",
}


class BadStream(Exception):
    """Bytes that are no frames."""


def must(holds, said):
    if not holds:
        raise BadStream(said)


# ---- the checksum


def crc_table():
    rows = []
    for n in range(256):
        for _ in range(8):
            n = n >> 1 ^ (0x82F63B78 if n & 1 else 0)
        rows.append(n)
    return rows


CRC = crc_table()


@functools.lru_cache(4096)
def crc32c(seed, data):
    for byte in data:
        seed = seed >> 8 ^ CRC[(seed ^ byte) & 255]
    return seed


# ---- what is written


def le(value, size):
    return value.to_bytes(size, "little")


def crc_of(segment):
    return le(crc32c(EMPTY, segment), 4)


@functools.lru_cache(4096)
def framed(tag, *segments):
    """The text of a frame; trailing empty segments are left out, but for the first."""
    while len(segments) > 1 and not segments[-1]:
        segments = segments[:-1]
    descriptors = b"".join(le(len(it), 4) + le(4096 if place == 3 else 8, 2) for place, it in enumerate(segments))
    head = bytes([tag, len(segments)]) + descriptors.ljust(26, b"\0")
    text = head + le(crc32c(0, head), 4) + segments[0] + (crc_of(segments[0]) if segments[0] else b"")
    if len(segments) > 1:
        text += b"".join(segments[1:]) + bytes([COMPLETE]) + b"".join(crc_of(it) for it in segments[1:]).ljust(12, b"\0")
    return text


def banner():
    return BANNER_TEXT + le(16, 2) + le(REVISION_1, 8) + le(REVISION_1, 8)


class Address:
    """An IPv4 address with its nonce; compared by nonce, ip and port, as all are of one kind."""

    def __init__(self, ip, port, nonce):
        self.ip, self.port, self.nonce = tuple(ip), port, nonce

    @staticmethod
    def of(word):
        """From IP:PORT/NONCE."""
        place, nonce = word.split("/")
        ip, port = place.split(":")
        return Address(map(int, ip.split(".")), int(port), int(nonce))

    def rank(self):
        return self.nonce, self.ip, self.port

    def place(self):
        return f"{'.'.join(map(str, self.ip))}:{self.port}"

    def text(self, nonce=None):
        """Its bytes; where a nonce is given, with that one."""
        socket = le(2, 2) + self.port.to_bytes(2, "big") + bytes(self.ip) + bytes(8)
        rest = le(MSGR2, 4) + le(self.nonce if nonce is None else nonce, 4) + le(len(socket), 4) + socket
        return bytes([1, 1, 1]) + le(len(rest), 4) + rest

    def vector(self):
        return bytes([2]) + le(1, 4) + self.text()

    def __str__(self):
        return f"{self.place()}/{self.nonce}"


def words(*numbers):
    """Numbers of 8 bytes each."""
    return b"".join(le(number, 8) for number in numbers)


def hello(entity, seen, nonce=None):
    return framed(HELLO, bytes([entity]) + seen.text(nonce))


def auth_request():
    return framed(AUTH_REQUEST, le(NO_METHOD, 4) + le(1, 4) + le(CRC_MODE, 4) + le(0, 4))


def auth_done():
    return framed(AUTH_DONE, le(0, 8) + le(CRC_MODE, 4) + le(0, 4))


def auth_signature():
    return framed(AUTH_SIGNATURE, bytes(32))


def message(kind, priority, parts, number, seen):
    """A MESSAGE of version 1 and compat 1, with 0 in every field that isn't named."""
    header = words(number, 0) + le(kind, 2) + le(priority, 2) + le(1, 2) + le(0, 4) + le(0, 2) + words(seen) + b"\0" + le(1, 2) + le(0, 2)
    return framed(MESSAGE, header, *parts)


# ---- what is read


def number(data, at, size):
    return int.from_bytes(data[at : at + size], "little")


class Frame:
    """A whole frame: its tag, its segments, where it begins and ends in its stream."""

    def __init__(self, tag, segments, start, end, aborted):
        self.tag, self.segments, self.start, self.end, self.aborted = tag, segments, start, end, aborted
        self.place = 0

    def take(self, size):
        must(self.place + size <= len(self.segments[0]), f"a frame with tag {self.tag} is short")
        self.place += size
        return number(self.segments[0], self.place - size, size)

    def address(self):
        must((self.take(1), self.take(1), self.take(1), self.take(4)) == (1, 1, 1, 28), "an address has another form")
        kind, nonce, size, family = self.take(4), self.take(4), self.take(4), self.take(2)
        must((kind, size, family) == (MSGR2, 16, 2), "an address isn't one of IPv4")
        port = int.from_bytes(self.take(2).to_bytes(2, "little"), "big")
        ip = self.take(4).to_bytes(4, "little")
        self.take(8)
        return str(Address(ip, port, nonce))

    def vector(self):
        must((self.take(1), self.take(4)) == (2, 1), "a vector has another form")
        return self.address()

    def control(self):
        """What a control payload says, by names; of the handshake's frames nothing."""
        self.place = 0
        names = {CLIENT_IDENT: "gid global supports requires flags client", SERVER_IDENT: "gid global supports requires flags server",
                 RECONNECT: "client server global connect seen"}.get(self.tag)
        if names:
            values = {"address": self.vector()}
            if self.tag == CLIENT_IDENT:
                values["target"] = self.address()
            values.update({name: self.take(8) for name in names.split()})
        elif self.tag == RESET:
            values = {"full": self.take(1)}
        elif self.tag == MISSING_FEATURES:
            values = {"bits": self.take(8)}
        elif self.tag in (RETRY, RETRY_GLOBAL, RECONNECT_OK, ACK):
            values = {"number": self.take(8)}
        else:
            return {}
        must(self.place == len(self.segments[0]), f"a frame with tag {self.tag} is long")
        return values

    def header(self):
        first = self.segments[0]
        must(len(first) == HEADER, "a message's header hasn't 41 bytes")
        return {"seq": number(first, 0, 8), "kind": number(first, 16, 2), "priority": number(first, 18, 2), "acked": number(first, 28, 8)}

    def parts(self):
        """Front, middle and data, as bytes."""
        return (self.segments[1:] + [b""] * 3)[:3]

    def says(self):
        return self.header() if self.tag == MESSAGE else self.control()


def length_of(head):
    """How long a frame is that has this preamble."""
    must(crc32c(0, head[:28]) == number(head, 28, 4), "the checksum of a preamble")
    must(1 <= head[0] <= 22, "a tag that there isn't")
    must(1 <= head[1] <= (4 if head[0] == MESSAGE else 1), "the number of segments")
    lengths = [number(head, 2 + 6 * i, 4) for i in range(head[1])]
    return PREAMBLE + sum(lengths) + 4 * bool(lengths[0]) + EPILOGUE * (len(lengths) > 1), lengths


def frame_at(stream, at, most=None):
    """The whole frame that begins at a place, or None where it isn't whole; of so many bytes of the stream."""
    most = len(stream) if most is None else most
    if at + PREAMBLE > most:
        return None
    length, lengths = length_of(bytes(stream[at : at + PREAMBLE]))
    if at + length > most:
        return None
    text = bytes(stream[at : at + length])
    first = text[PREAMBLE : PREAMBLE + lengths[0]]
    must(not first or crc_of(first) == text[PREAMBLE + len(first) : PREAMBLE + len(first) + 4], "the checksum of a first segment")
    segments, place, aborted = [first], PREAMBLE + len(first) + 4 * bool(first), False
    for size in lengths[1:]:
        segments.append(text[place : place + size])
        place += size
    if len(segments) > 1:
        must(all(crc_of(it) == text[place + 1 + 4 * i : place + 5 + 4 * i] for i, it in enumerate(segments[1:])), "the checksum of a segment")
        must(text[place] & 15 in (COMPLETE & 15, ABORTED), "the late status")
        aborted = text[place] & 15 == ABORTED
    return Frame(text[0], segments, at, at + length, aborted)


def banner_length(stream):
    """How long the banner is at the front of a stream, or None where that isn't known yet."""
    must(BANNER_TEXT.startswith(bytes(stream[:8])) if len(stream) < 8 else stream[:8] == BANNER_TEXT, "a stream begins with no banner")
    if len(stream) < 10:
        return None
    must(16 <= number(stream, 8, 2) <= 4096, "the length of a banner")
    return 10 + number(stream, 8, 2)


def frames_of(stream):
    """The whole frames behind the banner of a stream."""
    at, frames = banner_length(stream), []
    while at is not None:
        frame = frame_at(stream, at)
        if frame is None:
            break
        frames.append(frame)
        at = frame.end
    return frames
