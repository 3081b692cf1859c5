"""Sixty-four clients of sixteen workers beside a conversion, by the script crowd.rows, in a program that is
short of memory meanwhile.

    rows.py PROGRAM SHORT FOLDER

FOLDER has the scripts of crates/rows/data; SHORT is the library that refuses memory, while the program has
more than one thread: while clients are served. An operation that wanted memory is answered by error 12 and
is not executed; a session that wanted memory ends. Each session has to be one in which some operations went
so and all others were executed, and what is then read has to be what these wrote, or what the volume held before
by the oracle: no session and no block is another one's, whatever is refused. The program ends by itself; the
conversion comes to its end or wants memory.
"""

import hashlib
import itertools
import math
import os
import re
import struct
import subprocess
import sys

PROGRAM, SHORT, FOLDER = (os.path.abspath(word) for word in sys.argv[1:])
sys.path.insert(0, os.path.normpath(os.path.join(os.path.abspath(__file__), "../..")))

from oracle.scripts import Contents

SESSIONS, BLOCK, BLOCKS, ENOMEM = 64, 512, 4, 12
LINE = re.compile(r"  link \d+: (\d+) (.*), taken (\d+), put (\d+) ?(\w*)$")
COMMAND = r"loose serve .* --workers 16 "
ENDS = {"0 Fine", "13 Memory", "0 Fine wanting memory", "13 Memory wanting memory"}


def reply(cookie, error=0, data=b""):
    return struct.pack(">IIQ", 0x67446698, error, cookie) + data


def option_reply(kind, data=b""):
    return struct.pack(">QIII", 0x3E889045565A9, 7, kind, len(data)) + data


OPENED = b"NBDMAGICIHAVEOPT" + struct.pack(">H", 3) + option_reply(3, struct.pack(">HQH", 0, 256 * BLOCK, 0x14D))
OPENED += option_reply(3, struct.pack(">HIII", 3, BLOCK, 4096, 1 << 25)) + option_reply(1)


def executed(number, refused, stood):
    """What a client is put whose operations of these numbers wanted memory, reply by reply; and its blocks then."""
    blocks, replies = bytearray(stood), []

    def ask(place, work):
        replies.append(reply(place + 1, ENOMEM) if place in refused else reply(place + 1, 0, work() or b""))

    def put(at, data):
        blocks[at : at + len(data)] = data

    ask(0, lambda: put(0, bytes([number + 1]) * 1024))
    ask(1, lambda: put(1024, bytes([number + 101]) * 1024))
    ask(2, lambda: bytes(blocks))
    ask(3, lambda: put(512, bytes(512)))
    ask(4, lambda: bytes(blocks))
    ask(5, lambda: None)
    return replies, bytes(blocks)


def told(data):
    return data.hex() if len(data) <= 64 else hashlib.sha256(data).hexdigest()


def session(number, ending, put, found, stood):
    """How many operations of a session wanted memory, and its blocks; None where it is no such session."""
    for count in range(7):
        for refused in itertools.combinations(range(6), count):
            replies, blocks = executed(number, refused, stood)
            for length in [6] if ending == "Disconnected" else range(7):
                whole = OPENED + b"".join(replies[:length])
                if len(whole) == put and told(whole) == found:
                    # what is behind the last reply wasn't executed, or its reply wasn't put
                    return count, [blocks] if length == 6 else [executed(number, refused, stood)[1], cut(number, refused, stood, length)]
    return (0, [stood]) if ending != "Disconnected" and told(OPENED[:put]) == found else None


def cut(number, refused, stood, length):
    """The blocks of a session whose operations from this one on weren't executed."""
    return executed(number, set(refused) | set(range(length, 6)), stood)[1]


def judged(text, more, contents):
    """How many operations wanted memory, how many sessions and how many conversions; and of how many runs all
    blocks were compared."""
    wanted = [0, 0, 0, 0]
    runs = re.split(f"^(?={COMMAND})", text, flags=re.M)[1:]
    if len(runs) != len(contents):
        raise SystemExit(f"failed: {more}: {text[:300]}")
    for run, content in zip(runs, contents):
        lines = run.splitlines()
        end = re.match(r"  (.*) \"", lines[1])
        if not end or end[1] not in ENDS:
            raise SystemExit(f"failed: {more}: {lines[1]}")
        found = {}
        for line in lines[2:]:
            match = LINE.match(line)
            if not match:
                break
            number = int(match[1])
            stood = content[number * BLOCKS * BLOCK :][: BLOCKS * BLOCK]
            seen = session(number, match[2], int(match[4]), match[5], stood)
            if seen is None or match[2] not in ("Disconnected", "Memory"):
                raise SystemExit(f"failed: {more}: {line}")
            found[number] = seen
            wanted[0] += seen[0]
            wanted[1] += match[2] != "Disconnected"
        wanted[1] += SESSIONS - len(found)
        wanted[2] += "state: reencrypt" in run
        wanted[3] += is_compared(lines, found, more)
    return tuple(wanted)


def is_compared(lines, found, more):
    """Whether the last client was put all blocks, and few sessions are in doubt: it was put what they left then."""
    last = LINE.match(next((line for line in reversed(lines) if LINE.match(line)), ""))
    whole = OPENED + reply(0)
    if not last or last[2] != "Disconnected" or int(last[4]) != len(whole) + SESSIONS * BLOCKS * BLOCK or int(last[1]):
        return False
    left = [blocks for _, blocks in found.values()]
    if len(left) < SESSIONS or math.prod(map(len, left)) > 256:
        return False
    choices = itertools.product(*(found[number][1] for number in range(SESSIONS)))
    if not any(told(whole + b"".join(blocks)) == last[5] for blocks in choices):
        raise SystemExit(f"failed: {more}: other blocks than were written")
    return True


def lines_of(**more):
    """What the program prints, and how many calls for memory were counted and refused."""
    if os.path.exists("counts"):
        os.remove("counts")
    counts = os.path.abspath("counts")
    short = {"LD_PRELOAD": SHORT, "WANTING_SINCE": "threads", "WANTING_COUNTS": counts}
    ran = subprocess.run([PROGRAM, "crowd.rows"], capture_output=True, text=True, timeout=60, cwd=FOLDER, env=os.environ | short | more)
    if ran.returncode != 0:
        raise SystemExit(f"failed: {more}: status {ran.returncode}: {ran.stdout[-300:]} {ran.stderr}")
    with open("counts", "rb") as file:
        return ran.stdout, struct.unpack("<QQ", file.read(16))


def shortages(calls):
    """What is refused, run by run: one call of each part of a run; every so many; a share that is drawn; all."""
    for k in range(24):
        yield {"WANTING_FIRST": str(1 + calls * k // 24)}
    for every in (1, 2, 3, 5, 7, 11, 16, 23):
        yield {"WANTING_FIRST": str(every), "WANTING_EVERY": str(every)}
    for parts in ("10", "100", "500"):
        for seed in ("1", "2", "3"):
            yield {"WANTING_PARTS": parts, "WANTING_SEED": seed}
    for more in (64, 1024, 8192):
        yield {"WANTING_FIRST": "1", "WANTING_EVERY": "1", "WANTING_ABOVE": str(more)}
    for first in (2, 10, 50, 100, 200):
        yield {"WANTING_FIRST": str(first), "WANTING_EVERY": "0"}


def main():
    runs, refused, wanted = 0, 0, [0, 0, 0, 0]
    contents = Contents("crowd", COMMAND).found
    # once also of the conversion's worker, whose thread is the first one, and once of clients alone
    for others in ({}, {"WANTING_OTHERS": "1"}):
        text, (calls, _) = lines_of(**others)
        if judged(text, others, contents) != (0, 0, 0, len(contents)):
            raise SystemExit(f"failed: memory was wanted where none was refused: {text[:600]}")
        for more in shortages(calls):
            text, counts = lines_of(**more, **others)
            found = judged(text, more | others, contents)
            if counts[1] == 0 and any(found[:3]):
                raise SystemExit(f"failed: {more | others}: memory was wanted where none was refused: {text[:600]}")
            runs, refused = runs + 1, refused + counts[1]
            wanted = [one + two for one, two in zip(wanted, found)]
    if refused == 0 or 0 in wanted:
        raise SystemExit(f"failed: too little was refused: {refused} calls, and {wanted} wanted memory")
    print(
        f"{runs} runs, of whose calls for memory {refused} were refused in all: {wanted[0]} operations and {wanted[1]} "
        f"sessions wanted memory, and {wanted[2]} conversions of {2 * runs}; all blocks were compared in {wanted[3]}"
    )


main()
