#!/usr/bin/env python3
"""Lists what the gate costs, crate by crate: processor seconds of its proofs, its tests and its must-fail edits; the chain of
crates that must be proved one behind the other and takes longest; and the dearest functions of crates.

    bench/gate.py [NAME ..]               runs `rt ci --anew` at the top of the repository, over all crates or over these and
                                          those below them: each proof and each edit is done from nothing
    bench/gate.py --kept [NAME ..]        runs `rt ci` without --anew: what an earlier run kept isn't done again, nor counted
    bench/gate.py --functions [NAME ..]   checks each of these crates, or the five dearest of the last run, from nothing with
                                          one job, and lists its ten dearest functions. The libraries below are to be there

A toolchain whose `rt ci` keeps nothing has no --anew and takes no names: there it is `rt ci` in both cases.

What `rt ci` says goes to the file that the variable GATE_LOG names, if it is set.
`rt ci` starts a process of `rattle` for each proof, each proof of tests and each try of an edit, and a check of the crate
as it stands beside its edits, which counts as theirs. The program looks at those processes ten times a second, in /proc,
and adds up the processor time of each: so what other programs do at the same time changes nothing but the wall time. It
prints a line a crate, the dearest first, then the sums, the wall time, and the last line of `rt ci`, with whose
status it ends. Linux alone.
"""

import json
import os
import re
import shutil
import subprocess
import sys
import tempfile
import time

TOP = os.path.dirname(os.path.dirname(os.path.abspath(__file__)))
KEPT = f"{TOP}/.flowd/gate.json"  # the table of the last run
KINDS = ("proof", "tests", "edits")
DEAREST = 5, 10  # crates, and functions of each
TICKS = os.sysconf("SC_CLK_TCK")


def told(pid, name):
    """What a file of /proc says of a process, and nothing of one that has ended."""
    try:
        with open(f"/proc/{pid}/{name}", "rb") as file:
            return file.read()
    except OSError:
        return b""


def work_of(pid):
    """The crate that a process of `rattle` works on, and what it does for it; None where it is another program."""
    words = told(pid, "cmdline").decode(errors="replace").split("\0")
    if os.path.basename(words[0]) != "rattle" or "--crate-name" not in words:
        return None
    try:
        folder = os.path.basename(os.readlink(f"/proc/{pid}/cwd"))
    except OSError:
        return None
    kind = "edits" if folder.startswith("rt-edit-") else "tests" if "--test" in words else "proof"
    return words[words.index("--crate-name") + 1], kind


class Watch:
    """The processor time of the processes below one that was started here."""

    def __init__(self, root):
        self.ours, self.works, self.seconds = {root}, {}, {}

    def look(self):
        for pid in sorted(int(it) for it in os.listdir("/proc") if it.isdigit()):
            # (what stands behind the program's name, which may hold blanks)
            stat = told(pid, "stat").rpartition(b")")[2].split()
            if not stat or int(stat[1]) not in self.ours:
                continue
            self.ours.add(pid)
            # (a number may come again, at a later start)
            process = pid, stat[19]
            if self.works.get(process) is None:
                self.works[process] = work_of(pid)
            self.seconds[process] = (int(stat[11]) + int(stat[12])) / TICKS

    def by_crate(self):
        sums = {}
        for process, work in self.works.items():
            if work:
                crate, kind = work
                row = sums.setdefault(crate, dict.fromkeys(KINDS, 0.0))
                row[kind] += self.seconds[process]
        return sums


def print_row(name, row):
    print(f"{name:<20}" + "".join(f"{row[it]:>9.1f}" for it in KINDS) + f"{sum(row.values()):>9.1f}")


def command_of(words):
    """The run of `rt ci`, as the toolchain's own help says that it takes its words."""
    asked = subprocess.run(["rt", "help"], stdin=subprocess.DEVNULL, stdout=subprocess.PIPE, stderr=subprocess.STDOUT)
    if b"--anew" not in asked.stdout:
        return ["rt", "ci"]
    flags = [] if "--kept" in words else ["--anew"]
    return ["rt", "ci", *flags, *(it for it in words if it != "--kept")]


def uses():
    """The libraries that each crate uses, by crates.txt."""
    with open(f"{TOP}/crates.txt", encoding="utf-8") as file:
        return {name: used.split() for name, used in re.findall(r"(?m)^(\w+)[^#:\n]*:(.*)$", file.read())}


def longest_chain(seconds):
    """The crates of the chain that takes longest, where each is proved once all that it uses are, and its seconds."""
    used, ends = uses(), {}

    def end(crate):
        if crate not in ends:
            below = max((end(it) for it in used[crate] if it in used), default=(0, []))
            ends[crate] = below[0] + seconds.get(crate, 0), [*below[1], crate]
        return ends[crate]

    return max((end(crate) for crate in used), default=(0, []))


def print_chain(rows):
    seconds = {name: row["proof"] for name, row in rows.items()}
    whole, chain = longest_chain(seconds)
    print(f"the longest chain: {whole:.0f} s: " + ", ".join(f"{it} {seconds[it]:.0f}" for it in chain if it in seconds))


def print_functions(crate):
    """Checks a crate from nothing, and prints its dearest functions: `rt check` says when it has checked each."""
    kept = f"{TOP}/crates/{crate}/out/incremental"
    with tempfile.TemporaryDirectory(prefix="flowd-gate-") as room:
        if os.path.isdir(kept):
            shutil.move(kept, f"{room}/kept")
        run = subprocess.Popen(["rt", "check", "--jobs", "1"], cwd=f"{TOP}/crates/{crate}", stdout=subprocess.PIPE, stderr=subprocess.STDOUT, text=True)
        watch, last, spent = Watch(run.pid), 0.0, []
        for line in run.stdout:
            told = re.match(r"checked (\S+), \d+ of \d+$", line)
            if told:
                watch.look()
                now = sum(watch.seconds.values())
                spent.append((now - last, told[1]))
                last = now
            final = line
    print(f"{crate}: {final.split(' sum=')[0].strip()}, {len(spent)} functions, {sum(it for it, _ in spent):.1f} s with the reading of the libraries")
    for seconds, name in sorted(spent[1:], reverse=True)[: DEAREST[1]]:
        print(f"{seconds:>9.1f}  {name}")
    return run.wait()


def main_functions(names):
    if not names:
        with open(KEPT, encoding="utf-8") as file:
            rows = json.load(file)
        names = sorted(rows, key=lambda it: -rows[it]["proof"])[: DEAREST[0]]
    sys.exit(max([print_functions(it) for it in names]))


def main():
    if sys.argv[1:2] == ["--functions"]:
        main_functions(sys.argv[2:])
    command = command_of(sys.argv[1:])
    began = time.monotonic()
    with tempfile.TemporaryFile("w+", errors="replace") as said:
        run = subprocess.Popen(command, cwd=TOP, stdout=said, stderr=subprocess.STDOUT)
        watch = Watch(run.pid)
        while run.poll() is None:
            watch.look()
            time.sleep(0.1)
        said.seek(0)
        text = said.read()
    if "GATE_LOG" in os.environ:
        with open(os.environ["GATE_LOG"], "w", encoding="utf-8") as log:
            log.write(text)
    last = text.rstrip("\n").rpartition("\n")[2]
    rows = watch.by_crate()
    print(f"{'processor seconds':<20}" + "".join(f"{it:>9}" for it in KINDS) + f"{'all':>9}")
    for name in sorted(rows, key=lambda it: -sum(rows[it].values())):
        print_row(name, rows[name])
    print_row(f"{len(rows)} crates", {it: sum(row[it] for row in rows.values()) for it in KINDS})
    print_chain(rows)
    os.makedirs(os.path.dirname(KEPT), exist_ok=True)
    with open(KEPT, "w", encoding="utf-8") as file:
        json.dump(rows, file)
    print(f"{time.monotonic() - began:.0f} seconds of wall time; {' '.join(command)}: {last}")
    sys.exit(run.returncode)


main()
