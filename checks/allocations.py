"""Runs a program with one allocation refused, for each allocation in turn, and says what is wrong about any such run
(checks/allocations.sh).

usage: allocations.py PROGRAM LIBRARY [SCENARIO of sim [SCENARIO of run]]
"""
import os, subprocess, sys, tempfile

TOP = os.path.dirname(os.path.dirname(os.path.abspath(__file__)))
sys.dont_write_bytecode = True
sys.path.insert(0, os.path.join(TOP, ".ci"))
from threads import nodes

SECONDS = 30  # of one run
BEYOND = 50  # so many runs behind the last that was refused are as they would be without
DONE, WRITE_FAULT, NO_MEMORY = 0, 4, 9
AT_REST = (3, 1)  # descriptors and threads at the end: the three that a program begins with, and its own thread


def posts_both_ways():
    """A scenario of `run`: two nodes, posts both ways, a socket that is cut, and a throttle."""
    lines, _ = nodes(["a", "b"], {"b": " throttle 50 fast 2"}.items())
    lines += ["link a b lossless_peer lossless_peer", "limit 500", "cut a b 900"]
    lines += [f"post {x} {y} {kind} 127 6{place} - -" for place, (x, y, kind) in enumerate([("a", "b", 1), ("b", "a", 1), ("a", "b", 2)])]
    return "\n".join(lines) + "\n"


class Trial:
    """A program, its words, and what it prints without a refusal."""

    def __init__(self, program, library, words, room, full):
        self.words, self.room, self.full = [program, *words], room, full
        self.library = library
        self.status, self.out, _ = self.run(0)
        if self.status != DONE and words[0] != "sim":
            sys.exit(f"{words}: status {self.status} without a refusal")

    def run(self, number):
        """With the allocation of this number refused: status, output, and what is left at the end."""
        told = os.path.join(self.room, "told")
        if os.path.exists(told):
            os.remove(told)
        env = dict(os.environ, LD_PRELOAD=self.library, REFUSE=str(number), COUNT=told)
        with open("/dev/full" if self.full else os.devnull, "w") as err:
            got = subprocess.run(self.words, stdout=subprocess.PIPE, stderr=err, env=env, timeout=SECONDS)
        left = None
        if os.path.exists(told):
            with open(told) as file:
                left = [int(word) for word in file.read().split()]
        return got.returncode, got.stdout, left

    def objection(self, number, got):
        status, out, left = got
        if left is None or tuple(left[2:]) != AT_REST:
            return f"allocation {number}: {left} allocations, calls, descriptors and threads at the end"
        # Where standard error takes nothing, what would have said a status is a write fault; want of memory stays.
        itself = WRITE_FAULT if self.full and self.status != DONE else self.status
        if status == itself and (out == self.out or status == WRITE_FAULT):
            return None
        if status == NO_MEMORY and not out:
            return None
        if status == WRITE_FAULT and self.out.startswith(out):
            return None
        return f"allocation {number}: status {status}, {len(out)} bytes printed"

    def each(self):
        """What is wrong about any of the runs; how many were refused, and the last one."""
        refused, last, number, found = 0, 0, 0, []
        while number < last + BEYOND:
            number += 1
            try:
                got = self.run(number)
            except subprocess.TimeoutExpired:
                found.append(f"allocation {number}: not ended after {SECONDS} seconds")
                last = number
                continue
            said = self.objection(number, got)
            if said:
                found.append(said)
            if got[0] == NO_MEMORY:
                refused += 1
            # An allocation of this number was asked for: the runs go on until none is.
            if got[2] and got[2][0] >= number:
                last = number
        return found, refused, last


def main():
    program, library, *scenarios = sys.argv[1:]
    wrong = False
    with tempfile.TemporaryDirectory() as room:
        of_run = os.path.join(room, "run.scenario")
        with open(of_run, "w") as file:
            file.write(posts_both_ways())
        sim = scenarios[0] if scenarios else os.path.join(TOP, "examples", "first.scenario")
        run = scenarios[1] if len(scenarios) > 1 else of_run
        for words in (["sim", sim], ["run", run]):
            for full in (False, True):
                found, refused, last = Trial(program, library, words, room, full).each()
                for line in found:
                    print(f"{words[0]}, standard error {'full' if full else 'open'}: {line}")
                wrong |= bool(found)
                print(f"{words[0]}, standard error {'full' if full else 'open'}: {last} allocations refused in turn, {refused} runs ended for want of memory, {len(found)} not as they should")
    return wrong


if __name__ == "__main__":
    sys.exit(main())
