#!/usr/bin/env python3
"""Lays recorded traffic of real daemons beside the profile: of each capture the summary, by which rows asks were answered, and what
each side wrote that this project's own ends wouldn't.

usage: checks/recorded.py [FILE or FOLDER]..     pcap or pcapng files, and folders of them; none: the folder that RECORDED names

Of each capture the program frame_facts tells the frames, by tools/capture with --summary and --check. Where there is no recording it
says so, and the status is 0: nobody has to have one. It is 1 where a capture can't be told. On a test cluster
`tcpdump -i any -w one.pcap 'tcp port 3300 or tcp portrange 6800-7568'` records one; docs/FRAMES.md says how to have crc mode.
"""
import collections
import json
import os
import re
import subprocess
import sys

TOP = os.path.dirname(os.path.dirname(os.path.abspath(__file__)))
ENDINGS = (".pcap", ".pcapng", ".cap")
PROVED, UNPROVED = (os.path.join(TOP, "crates", "frame_facts", "out", it, "frame_facts") for it in ("", "unproved"))


def files_of(words):
    for word in words:
        if os.path.isdir(word):
            yield from (os.path.join(at, name) for at, _, names in sorted(os.walk(word)) for name in sorted(names) if name.endswith(ENDINGS))
        else:
            yield word


def capture(program, file, *options):
    ran = subprocess.run([sys.executable, os.path.join(TOP, "tools", "capture"), "--program", program, *options, file], capture_output=True, text=True)
    return ran.stdout.splitlines(), ran.stderr.strip(), ran.returncode


def told(counted):
    for said, count in counted.most_common():
        print(f"  {count:7} {said}")


def show(program, file):
    """Whether a capture is told; with what is to be seen of it."""
    print(f"{file}:")
    summary, wrong, status = capture(program, file, "--summary")
    for line in summary:
        print(f"  {line}")
    if status:
        print(f"  {wrong}")
        return False
    rows, others = collections.Counter(), collections.Counter()
    for event in map(json.loads, capture(program, file, "--check", "--json")[0]):
        if "row" in event:
            rows[f"{event['tag']} by the row {event['row']}"] = event["count"]
        others.update(f"{event['tag']}: {re.sub('[0-9]+', 'N', said)}" for said in event.get("unlike", ()))
    print("  answers by their rows (docs/PROTOCOL.md), as far as the capture tells them:")
    told(rows)
    print("  written otherwise than the profile has it:")
    told(others)
    return True


def main():
    words = sys.argv[1:] or [it for it in (os.environ.get("RECORDED"),) if it]
    files = list(files_of(words))
    if not files:
        print(f"recorded: no recording of real daemons is there{f' in {words[0]}' if words else ''}, so nothing was compared: give files or folders, or name a folder by RECORDED")
        return 0
    program = next((it for it in (PROVED, UNPROVED) if os.access(it, os.X_OK)), None)
    if not program:
        print("recorded: frame_facts isn't built: ./msgr2 capture FILE builds it")
        return 1
    if program == UNPROVED:
        print("recorded: by a program that is built without a proof")
    wrong = [file for file in files if not show(program, file)]
    print(f"recorded: {len(files) - len(wrong)} captures are told" + (f", and these aren't: {', '.join(wrong)}" if wrong else ""))
    return 1 if wrong else 0


sys.exit(main())
