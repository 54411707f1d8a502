"""Speaks over four connections on the loopback, one after another, for a capture: msgr2 in crc mode, msgr1, msgr2 in
secure mode, and something else. The frames are those of examples/frames."""
import os, socket, struct, sys, threading

FRAMES = os.path.join(os.path.dirname(os.path.abspath(__file__)), "..", "examples", "frames")
BANNER = b"ceph v2\n" + struct.pack("<HQQ", 16, 1, 1)
AUTH_DONE, SECURE = 6, 2


def of_example(name):
    with open(os.path.join(FRAMES, name), "rb") as file:
        return file.read()


def crc32c(state, data):
    for byte in data:
        state ^= byte
        for _ in range(8):
            state = state >> 1 ^ (0x82F63B78 if state & 1 else 0)
    return struct.pack("<I", state)


def auth_done():
    """An AUTH_DONE that chooses secure mode: a global id, the mode, and an empty payload."""
    payload = struct.pack("<QII", 4711, SECURE, 0)
    head = struct.pack("<BBIH", AUTH_DONE, 1, len(payload), 8) + bytes(20)
    return head + crc32c(0, head) + payload + crc32c(0xFFFFFFFF, payload)


TALKS = [  # what the opener sends, and what the acceptor does
    (BANNER + of_example("message.frames"), BANNER + of_example("message_and_ack.frames")),
    (b"ceph v027" + bytes(100), b"ceph v027" + bytes(200)),
    (BANNER + of_example("wait.frames") + os.urandom(500), BANNER + auth_done() + os.urandom(700)),
    (b"GET / HTTP/1.0\r\n\r\n", b""),
]


def talk(end, sends):
    end.sendall(sends)
    end.shutdown(socket.SHUT_WR)
    while end.recv(65536):
        pass
    end.close()


def main():
    listener = socket.create_server(("127.0.0.1", int(sys.argv[1])))
    for opener_sends, acceptor_sends in TALKS:
        opener = socket.create_connection(listener.getsockname())
        acceptor, _ = listener.accept()
        one = threading.Thread(target=talk, args=(opener, opener_sends))
        one.start()
        talk(acceptor, acceptor_sends)
        one.join()


main()
