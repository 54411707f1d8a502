"""What a file is by its first bytes, where it isn't what a command wants.

`kind_of(first)` takes the first bytes of a file, 4,096 or all that it has, and gives one sentence for a user, without its full stop:
what the file is, and which command reads it; None where they tell nothing.
"""
import re

import wire

FIRST = 4096  # as many bytes as tell
CAPTURE = "./msgr2 capture FILE tells what was said in it"
UNPACK = "unpack it first"
MAGIC = (  # the first bytes of a file, and what it is; of two that fit the longer one stands first
    (b"\xd4\xc3\xb2\xa1", f"it is a pcap file, a capture of packets: {CAPTURE}"),
    (b"\xa1\xb2\xc3\xd4", f"it is a pcap file, a capture of packets: {CAPTURE}"),
    (b"\x4d\x3c\xb2\xa1", f"it is a pcap file, a capture of packets: {CAPTURE}"),
    (b"\xa1\xb2\x3c\x4d", f"it is a pcap file, a capture of packets: {CAPTURE}"),
    (b"\x0a\x0d\x0d\x0a", f"it is a pcapng file, a capture of packets: {CAPTURE}"),
    (b"ceph v2\n", "it begins with the banner of msgr2: ./msgr2 facts FILE reads it with its banner, and ./msgr2 frames FILE without"),
    (b"ceph v0", "it begins with the banner of msgr1, which nothing here reads: look at port 3300 in place of 6789"),
    (b"snoop\0\0\0", "it is a capture of snoop: tshark -F pcap -r FILE -w OUT makes a pcap file of it"),
    (b"\x1f\x8b", f"it is packed by gzip: {UNPACK}, by gunzip"),
    (b"BZh", f"it is packed by bzip2: {UNPACK}, by bunzip2"),
    (b"\xfd7zXZ\0", f"it is packed by xz: {UNPACK}, by unxz"),
    (b"\x28\xb5\x2f\xfd", f"it is packed by zstd: {UNPACK}, by unzstd"),
    (b"\x04\x22\x4d\x18", f"it is packed by lz4: {UNPACK}, by unlz4"),
    (b"PK\x03\x04", f"it is a zip file: {UNPACK}, by unzip"),
    (b"\x7fELF", "it is a program"),
    (b"\x16\x03", "it begins with a record of TLS: what follows is cipher text, and no frame of msgr2"),
    (b"SSH-", "it begins with the banner of ssh, not with one of Ceph"),
    (b"HTTP/", "it is an answer of HTTP, not a stream of Ceph"),
    (b"\x89PNG", "it is a picture"),
)
TRACE = re.compile(rb"^  [a-z0-9_]{1,16} (node|journal) ", re.MULTILINE)
SCENARIO = re.compile(rb"^node [a-z0-9_]{1,16} (mon|mds|osd|client|mgr) ", re.MULTILINE)
TEXTS = (  # the form of a text's first line that isn't a remark, and what it is
    (rb"pair [a-z_]+ [a-z_]+", "it is a schedule of two records: the program record_trace runs it"),
    (rb"[ab] address [0-9.]+:[0-9]+/[0-9]+ ", "it is a trace of two records: tools/replay_trace.py FILE replays it"),
    (rb"<(\?xml|svg)\b", "it is a picture as SVG: a browser shows it"),
    (rb"([0-9a-f]{4,8}:? +)([0-9a-f]{2} ?){2}", "it is a dump of bytes as text: xxd -r FILE > OUT makes the bytes of one that xxd wrote"),
    (rb"(Follow: tcp,raw|={20,})", "it is what tshark prints of a stream: tools/streams CAPTURE FOLDER takes the streams out of the capture itself"),
    (rb"[0-9]+:[0-9]{2}:[0-9]{2}\.[0-9]+ (\S+ +(In|Out|B|M|P) +)?(IP6?|ARP)\b", "it is what tcpdump prints: tcpdump -w FILE keeps the packets themselves"),
    (rb"([0-9]+ )?(MESSAGE|[A-Z]+_?[A-Z0-9_]*)( [a-z_]+=\S*)+$", "it is what ./msgr2 facts prints: give it the file of which that was told"),
    (rb"[0-9]+\.[0-9]{6} [0-9]+ ", "it is what ./msgr2 capture prints: give it the capture itself"),
    (rb"(MESSAGE|[A-Z]+_?[A-Z0-9_]*)( [0-9]+)+$", "it is what ./msgr2 frames prints: give it the file of which that was listed"),
    (rb"\{\"", "it is JSON, which no command here reads"),
)


def kind_of(first):
    """What a file is that begins with these bytes, in one sentence; None where they don't tell."""
    if not first:
        return "it is empty: it has no frame, no packet and no line"
    for magic, said in MAGIC:
        if first.startswith(magic):
            return said
    if not any(first[:64]):
        return "it begins with zero bytes: a file that was reserved, or copied with holes, and never filled"
    return frames_of(first) or text_of(first)


def frames_of(first):
    """Of bytes that begin with a frame's preamble, that they are frames."""
    try:
        if len(first) >= wire.PREAMBLE:
            wire.length_of(first[: wire.PREAMBLE])
            return "it begins with a frame of msgr2.1 in crc mode: ./msgr2 frames FILE lists the frames, and ./msgr2 facts FILE tells what they say"
    except wire.BadStream:
        pass
    return None


def text_of(first):
    """Of a text what it is, by its first line that isn't a remark."""
    lines = [line for line in first.splitlines() if line.strip() and not line.startswith(b"#")]
    if not lines or any(byte < 9 for byte in first):
        return None
    if TRACE.search(first):
        return "it is the trace of a run: ./msgr2 draw FILE draws it, and ./msgr2 why FILE tells what became of each post"
    if SCENARIO.search(first):
        return "it is a scenario: ./msgr2 sim FILE runs it"
    return next((said for form, said in TEXTS if re.match(form, lines[0])), None)
