"""Runs three nodes on threads with one call of the system refused, for each kind of call and each k up to 20, and says what is wrong
about any such run (checks/calls.sh).

usage: calls.py PROGRAM LIBRARY [KIND..]
"""
import errno, os, subprocess, sys, tempfile

TOP = os.path.dirname(os.path.dirname(os.path.abspath(__file__)))
sys.dont_write_bytecode = True
sys.path.insert(0, os.path.join(TOP, ".ci"))
from threads import nodes, sorted_report

SECONDS = 60  # of one run
LAST = 20
LIMIT = 1_500  # milliseconds
NAMES = ["n0", "n1", "n2"]
DONE, BIND_FAULT, STALLED = 0, 5, 7
AT_REST = (3, 1)  # descriptors and threads at the end
# Each kind of call with an error that the system may answer, and the statuses that it may lead to.
KINDS = {
    "socket": (errno.EMFILE, {DONE, BIND_FAULT}),
    "bind": (errno.EADDRINUSE, {DONE, BIND_FAULT}),
    "listen": (errno.EADDRINUSE, {DONE, BIND_FAULT}),
    "connect": (errno.ECONNREFUSED, {DONE}),
    "accept4": (errno.ECONNABORTED, {DONE}),
    "recv": (errno.ECONNRESET, {DONE}),
    "send": (errno.ECONNRESET, {DONE}),
    "epoll_create1": (errno.EMFILE, {DONE, STALLED}),
    "epoll_ctl": (errno.ENOSPC, {DONE, STALLED}),
    "epoll_wait": (errno.EBADF, {DONE}),
    "setsockopt": (errno.ENOPROTOOPT, {DONE, BIND_FAULT}),
    "getsockname": (errno.ENOBUFS, {DONE}),
    "getpeername": (errno.ENOBUFS, {DONE}),
    "getsockopt": (errno.ENOBUFS, {DONE}),
    "pthread_create": (errno.EAGAIN, {DONE}),
}


def scenario():
    """Three nodes, 600 posts, and cuts; and the report."""
    lines, _ = nodes(NAMES)
    lines += [f"link {a} {b} lossless_peer lossless_peer" for i, a in enumerate(NAMES) for b in NAMES[i + 1 :]]
    pairs = [(a, b) for a in NAMES for b in NAMES if a != b]
    posts = [(a, b, 1, 127, f"{number:04x} - -") for a, b in pairs for number in range(100)]
    lines += [f"post {a} {b} {kind} {priority} {text}" for a, b, kind, priority, text in posts]
    lines += [f"cut {a} {b} {bytes}" for a, b in pairs for bytes in (2_000, 5_000)]
    return "\n".join([*lines, f"limit {LIMIT}"]) + "\n", sorted_report(NAMES, posts)


def objection(program, library, kind, k, room):
    """What is wrong about the run with the k-th call of this kind refused, if anything is; its status; how many calls were made."""
    text, report = scenario()
    path, told = os.path.join(room, "case.scenario"), os.path.join(room, "told")
    with open(path, "w") as file:
        file.write(text)
    if os.path.exists(told):
        os.remove(told)
    error, statuses = KINDS[kind]
    env = dict(os.environ, LD_PRELOAD=library, CALL=kind, AT=str(k), ERROR=str(error), COUNT=told)
    try:
        got = subprocess.run([program, "run", path], capture_output=True, text=True, env=env, timeout=SECONDS)
    except subprocess.TimeoutExpired:
        return f"not ended after {SECONDS} seconds", None, 0
    left = [0, 0, *AT_REST]
    if os.path.exists(told):
        with open(told) as file:
            left = [int(word) for word in file.read().split()]
    status = got.returncode
    if status not in statuses:
        return f"status {status}, {got.stderr.strip()!r}", status, left[1]
    if status == DONE and got.stdout != report or status == BIND_FAULT and got.stdout:
        return f"status {status}, and another report", status, left[1]
    lines, of = set(got.stdout.splitlines()), set(report.splitlines())
    if status == STALLED and not lines <= of:
        return f"status {status}, and lines that nobody posted", status, left[1]
    if tuple(left[2:]) != AT_REST:
        return f"{left[2]} descriptors and {left[3]} threads at the end", status, left[1]
    return None, status, left[1]


def main():
    program, library, *kinds = sys.argv[1:]
    wrong = False
    with tempfile.TemporaryDirectory() as room:
        for kind in kinds or KINDS:
            seen = {}
            for k in range(1, LAST + 1):
                said, status, calls = objection(program, library, kind, k, room)
                seen[status] = seen.get(status, 0) + 1
                if said:
                    wrong = True
                    print(f"{kind} {k}: {said}")
                if calls and calls < k:
                    break  # no such call is made
            print(f"{kind}: " + ", ".join(f"{count} runs ended with status {status}" for status, count in seen.items()), flush=True)
    return wrong


if __name__ == "__main__":
    sys.exit(main())
