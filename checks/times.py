#!/usr/bin/env python3
"""Runs the gate, and prints what each crate costs: a table for docs/STATUS.md.

Use: python3 checks/times.py [CRATE..]

It runs `rt ci` with these words and passes on its output, its status too. Ten times a second it looks at the processes
that the gate has started, and notes how much of a processor each has used so far. What a machine has passed before
costs next to nothing here: so the table is true of crates that were not kept.

Proofs are the check from nothing and the build that proves once more; tests the same of a crate with its tests. Seconds
are those of a processor, user and system together.
"""

import collections
import os
import re
import subprocess
import sys
import threading
import time

ROOT = os.path.dirname(os.path.dirname(os.path.abspath(__file__)))
STAGES = ("proofs", "tests", "wrong bodies")
TICKS = os.sysconf("SC_CLK_TCK")


def crates():
    """The names of the repository's crates, in the order of crates.txt."""
    with open(os.path.join(ROOT, "crates.txt"), encoding="utf-8") as lines:
        lines = [line.split("#")[0].strip() for line in lines]
    return [line.partition(":")[0].split()[0] for line in lines if line]


def code_lines(name):
    """The lines of the crate's src/."""
    total = 0
    for folder, _, files in os.walk(os.path.join(ROOT, "crates", name, "src")):
        for file in files:
            with open(os.path.join(folder, file), "rb") as text:
                total += sum(1 for _ in text)
    return total


def stage_of(words):
    """What a process with these words does for a crate: the crate's name and the stage, or None."""
    if len(words) < 2 or words[1] not in ("check", "build") or "--crate-name" not in words[:-1]:
        return None
    name = words[words.index("--crate-name") + 1]
    if "--test" in words:
        return name, "tests"
    edited = any(re.search(r"/rt-edits[^/]*/\d+$", word) for word in words)
    return name, "wrong bodies" if edited else "proofs"


def parent_and_seconds(pid):
    """The number of a process's parent and the seconds of a processor that it used."""
    with open(f"/proc/{pid}/stat", encoding="utf-8", errors="replace") as text:
        fields = text.read().rpartition(")")[2].split()
    return int(fields[1]), (int(fields[11]) + int(fields[12])) / TICKS


class Watch(threading.Thread):
    """Notes what the processes below one have used, until it is told to stop."""

    def __init__(self, root):
        super().__init__(daemon=True)
        self.root = root
        self.over = threading.Event()
        self.used = {}

    def run(self):
        while not self.over.wait(0.1):
            found = {}
            for pid in filter(str.isdigit, os.listdir("/proc")):
                try:
                    found[int(pid)] = parent_and_seconds(pid)
                except (OSError, IndexError, ValueError):
                    continue
            for pid in found:
                try:
                    self.note(pid, found)
                except OSError:
                    continue

    def note(self, pid, found):
        """Notes one process, where it is one of the gate's."""
        above, steps = pid, 0
        while above in found and above != self.root and steps < 20:
            above, steps = found[above][0], steps + 1
        if above != self.root:
            return
        with open(f"/proc/{pid}/cmdline", encoding="utf-8", errors="replace") as text:
            stage = stage_of(text.read().split("\0"))
        if stage:
            self.used[(pid, stage)] = found[pid][1]

    def seconds(self):
        """The seconds by crate and stage."""
        spent = collections.defaultdict(lambda: dict.fromkeys(STAGES, 0.0))
        for (_, (name, stage)), used in self.used.items():
            spent[name][stage] += used
        return spent


def run_gate(words):
    """Runs the gate. Answers its status, the processor seconds of all that it did, and those by crate."""
    child = subprocess.Popen(["rt", "ci", *words], cwd=ROOT, stdin=subprocess.DEVNULL)
    watch = Watch(child.pid)
    watch.start()
    _, status, usage = os.wait4(child.pid, 0)
    watch.over.set()
    watch.join()
    return os.waitstatus_to_exitcode(status), usage.ru_utime + usage.ru_stime, watch.seconds()


def table(spent, whole, elapsed):
    """Prints the table."""
    print("| Crate | Lines of `src/` | Proofs | Tests | Wrong bodies | Together | Minutes a 1,000 lines |")
    print("|---|---|---|---|---|---|---|")
    lines = 0
    for name in crates():
        if name in spent:
            code, parts = code_lines(name), spent[name]
            lines += code
            cells = " | ".join(f"{parts[stage]:.0f} s" for stage in STAGES)
            together = sum(parts.values())
            print(f"| `{name}` | {code:,} | {cells} | {together:.0f} s | {together / 60 / max(code, 1) * 1000:.1f} |")
    print()
    print(f"With building and running, {whole / 60:.0f} processor minutes for {lines:,} lines of `src/`: "
          f"{whole / 60 / max(lines, 1) * 1000:.1f} a thousand, in {elapsed / 60:.0f} minutes on {os.cpu_count()} processors.")


def main():
    unknown = [name for name in sys.argv[1:] if name not in crates()]
    if unknown:
        sys.exit(f"checks/times.py: no crate {unknown[0]} in crates.txt")
    began = time.monotonic()
    status, whole, spent = run_gate(sys.argv[1:])
    sys.stdout.flush()
    table(spent, whole, time.monotonic() - began)
    sys.exit(status)


main()
