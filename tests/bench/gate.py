"""What the gate costs from nothing: runs `rt ci --anew`, which takes nothing that earlier runs kept, and
prints the processor time of all that it ran, the clock, when the first proof began and ended, the
longest chain of proofs, and for each crate the processor seconds of its proof, of its tests' proof and
of its must-fail edits, and when each was proved.

With names it proves those crates and the ones below them. The whole sum is the kernel's. The seconds
of a crate are found under /proc by the crate's name among a prover's words, twice a second; so a
prover that lives for less than that may be missed, and the last half second of each is."""

import os
import re
import resource
import subprocess
import sys
import time

TICKS = os.sysconf("SC_CLK_TCK")
KINDS = ("proof", "tests", "edits")
PAUSE = 0.5


class Check:
    """What was seen of the provers of one crate and kind: their processor seconds, and from when to when."""

    def __init__(self, now):
        self.spent, self.began, self.ended = {}, now, now

    def see(self, prover, seconds, now):
        self.spent[prover], self.ended = seconds, now

    def seconds(self):
        return sum(self.spent.values())

    def lasted(self):
        return self.ended - self.began


def words_of(pid):
    with open(f"/proc/{pid}/cmdline", "rb") as it:
        return it.read().decode(errors="replace").split("\0")


def state_of(pid):
    """The session that a process belongs to, when it began, and its processor seconds and those of the
    processes that it waited for."""
    with open(f"/proc/{pid}/stat") as it:
        fields = it.read().rpartition(")")[2].split()
    return int(fields[3]), fields[19], sum(map(int, fields[11:15])) / TICKS


def task_of(pid):
    """The crate and the kind of work of a prover, or None of another process."""
    words = words_of(pid)
    if not words[0].endswith("rattle") or "--crate-name" not in words:
        return None
    crate = words[words.index("--crate-name") + 1]
    if "/rt-edit" in os.readlink(f"/proc/{pid}/cwd"):
        return crate, "edits"
    return crate, "tests" if "--test" in words else "proof"


def sample(gate, checks, now):
    """Notes what each prover of the gate has spent so far."""
    for pid in filter(str.isdigit, os.listdir("/proc")):
        try:
            session, began, seconds = state_of(pid)
            task = task_of(pid) if session == gate else None
        except (OSError, ValueError, IndexError):
            continue
        if task:
            checks.setdefault(task, Check(now)).see((pid, began), seconds, now)


def libraries_of():
    """Of each crate of crates.txt the crates that its line names, the lowest crates first."""
    with open("crates.txt") as it:
        lines = [line.split(":") for line in it if ":" in line and not line.startswith("#")]
    below = {head.split()[0]: tail.split() for head, tail in lines}
    own = {name: [it for it in tail if it in below] for name, tail in below.items()}
    order = {}

    def place(name):
        for it in own[name]:
            if it not in order:
                place(it)
        order.setdefault(name, own[name])

    for name in own:
        place(name)
    return order


def longest_chain(checks):
    """The crates whose proofs come one after the other for the longest time, by how long each took."""
    chains = {}
    for name, below in libraries_of().items():
        lasted = checks[name, "proof"].lasted() if (name, "proof") in checks else 0.0
        before = max((chains[it] for it in below), key=lambda it: it[0], default=(0.0, []))
        chains[name] = before[0] + lasted, [*before[1], (name, lasted)]
    return max(chains.values(), key=lambda it: it[0])


def show_table(checks, proved):
    crates = dict.fromkeys(crate for crate, _ in checks)
    rows = {it: [checks[it, kind].seconds() if (it, kind) in checks else 0.0 for kind in KINDS] for it in crates}
    print(f"\n{'processor seconds':20}" + "".join(f"{kind:>8}" for kind in KINDS) + f"{'all':>8}   proved at, tests at")
    for crate, row in sorted(rows.items(), key=lambda it: -sum(it[1])):
        clock = ", ".join(f"{proved[crate, kind]:.0f} s" for kind in KINDS[:2] if (crate, kind) in proved)
        print(f"{crate:20}" + "".join(f"{it:8.0f}" for it in row) + f"{sum(row):8.0f}   {clock}")
    whole = [sum(row[at] for row in rows.values()) for at in range(len(KINDS))]
    print(f"{'all':20}" + "".join(f"{it:8.0f}" for it in whole) + f"{sum(whole):8.0f}")


def show_sums(checks, proved, wall):
    spent = resource.getrusage(resource.RUSAGE_CHILDREN)
    first = min((it.began for it in checks.values()), default=wall)
    print(f"{(spent.ru_utime + spent.ru_stime) / 60:.1f} processor minutes, {wall / 60:.1f} minutes by the clock on {os.cpu_count()} processors")
    print(f"the first proof began at {first:.0f} s and ended at {min(proved.values(), default=wall):.0f} s")
    lasted, chain = longest_chain(checks)
    print(f"the longest chain of proofs took {lasted / 60:.1f} minutes: " + ", ".join(f"{name} {it:.0f} s" for name, it in chain))


def main():
    began, checks, proved = time.monotonic(), {}, {}
    gate = subprocess.Popen(
        ["rt", "ci", "--anew", *sys.argv[1:]], stdout=subprocess.PIPE, stderr=subprocess.STDOUT, start_new_session=True
    )
    os.set_blocking(gate.stdout.fileno(), False)
    while True:
        gone = gate.poll() is not None
        text = (gate.stdout.read() or b"").decode(errors="replace")
        sys.stdout.write(text)
        sys.stdout.flush()
        for crate, tests in re.findall(r"^rt: (\w+)(: its tests are)? proved$", text, re.MULTILINE):
            proved[crate, "tests" if tests else "proof"] = time.monotonic() - began
        if gone:
            break
        sample(gate.pid, checks, time.monotonic() - began)
        time.sleep(PAUSE)
    show_table(checks, proved)
    show_sums(checks, proved, time.monotonic() - began)
    return gate.returncode


sys.exit(main())
