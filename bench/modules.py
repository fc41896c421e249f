#!/usr/bin/env python3
"""Times flowd beside TypeScript's compiler over the same modules: the time and the peak of memory of both.

    bench/modules.py                       300 and 1,000 generated modules, and 300 dense ones of about 180 lines
    bench/modules.py SHAPE COUNT..         modules of one shape alone; SHAPE is generated, dense, shared, chain, ring or star
    bench/modules.py --workers N,.. [SHAPE COUNT..]     with so many workers each, as 1,2,4, in turn: by itself 300 dense modules,
                                           4,096 and 30 generated ones; beside it, what as many programs with one worker
                                           each come to at once, which is what the machine has for that many
    bench/modules.py shares SHAPE COUNT N,..    how many instructions all threads of a load take, and the one that takes most, with so many
                                           workers each, by valgrind: what the program leaves to one alone, on whatever machine
    bench/modules.py top SHAPE COUNT [N]   the ten functions of flowd that take most time, by perf, with N workers
    bench/modules.py write FOLDER SHAPE COUNT [ts]      writes the modules, for TypeScript where ts is said

A generated module has a type that leads to another module's, a value and a function, as those of `flowd --gen` have. A
dense one has types, functions with bodies, refinements, loops, object literals, and calls into the module before it. Of shared modules
all import one name each of the first one, which exports as many; in a chain each one's type leads to that of the one before, in a ring
the first one's to that of the last, so that all are one component; and of a star one module imports a name of each other. TypeScript
itself fails on a ring of 2,000, which ends the run.
TypeScript reads the same modules in its own words: `T | null | undefined` for `?T`, `readonly` for `+`. It checks them
alone: no declarations of a browser, and none of the library's own. What it takes to start is told by an empty module.

FLOWD names another program in the place of crates/flowd/out/flowd, which ./build builds. TypeScript is that of Debian's node-typescript,
`top` needs its linux-perf, and `shares` its valgrind.
"""

import glob
import os
import statistics
import subprocess
import sys
import tempfile
import time

TOP = os.path.dirname(os.path.dirname(os.path.abspath(__file__)))
FLOWD = os.environ.get("FLOWD", f"{TOP}/crates/flowd/out/flowd")
TSC = ["tsc", "--noEmit", "--strict", "--target", "es2020", "--lib", "es2020", "--skipLibCheck"]
PARTS = 10  # of a dense module
MODULES = 1024  # that flowd takes where no word says more
SMALL, ROUNDS = 100, (25, 20)  # how often a load is timed: of many modules, and of few


class Draws:
    """The generator's draws."""

    def __init__(self, seed):
        self.state = seed

    def below(self, bound):
        self.state = (self.state * 6364136223846793005 + 1442695040888963407) % 2**64
        return (self.state >> 33) % bound


def maybe(name, is_ts):
    return f"{name} | null | undefined" if is_ts else f"?{name}"


def generated(count, is_ts, seed=1):
    """The generator's modules, as they are before the first edit: each name and text."""
    draws = Draws(seed)
    leads = [None] + [draws.below(i) for i in range(1, count)]
    for i, j in enumerate(leads):
        other = "" if j is None else f"import type {{T{j}}} from './m{j}';\n"
        prop, value = ("", "") if j is None else (f", b: {maybe(f'T{j}', is_ts)}", ", b: null")
        yield f"m{i}", (
            f"{other}export type T{i} = {{a: number{prop}}};\n"
            f"export const v{i}: T{i} = {{a: {i}{value}}};\n"
            f"export function f{i}(x: T{i}): number {{ return x.a + 0; }}\n"
        )


def part(i, n, is_ts):
    """Seventeen lines of a dense module: a type, a value, and a function that narrows, loops and calls."""
    row, text = maybe(f"Row{n}", is_ts), maybe("string", is_ts)
    return (
        f"type Row{n} = {{{'readonly ' if is_ts else '+'}id: number, label: {text}, tags: Array<string>, next: {row}}};\n"
        f"const row{n}: Row{n} = {{id: {n}, label: 'row {n}', tags: ['a', 'b'], next: null}};\n"
        f"export function walk{n}(start: {row}, limit: number): number {{\n"
        f"  let found: number = 0;\n"
        f"  let row: {row} = start;\n"
        f"  while (row != null && found < limit) {{\n"
        f"    const label: {text} = row.label;\n"
        f"    if (label != null && label !== 'none') {{\n"
        f"      found = found + row.id;\n"
        f"    }} else if (row.id > 10) {{\n"
        f"      found = found + size{i}(row.tags, {n});\n"
        f"    }}\n"
        f"    row = row.next;\n"
        f"  }}\n"
        f"  return found > {n} ? found : size{i}(['x'], found);\n"
        f"}}\n"
        f"export const total{n}: number = walk{n}(row{n}, 100);\n"
    )


def dense(count, is_ts):
    """Modules of about 180 lines, each of which calls functions of the one before: each name and text."""
    for i in range(count):
        other = f"import {{size{i - 1}, area{i - 1}}} from './d{i - 1}';\nimport type {{Shape{i - 1}}} from './d{i - 1}';\n" if i else ""
        inner = f"size{i - 1}(tags, depth - 1)" if i else "depth"
        more = f"const before: Shape{i - 1} = {{kind: 'square', side: 2}};\nexport const all: number = area{i - 1}(before);\n" if i else ""
        yield f"d{i}", (
            f"{other}export type Shape{i} = {{kind: 'round', radius: number}} | {{kind: 'square', side: number}};\n"
            f"export function size{i}(tags: Array<string>, depth: number): number {{\n"
            f"  if (depth <= 0) {{ return 0; }}\n"
            f"  return depth > tags.length ? {inner} : depth + 1;\n"
            f"}}\n"
            f"export function area{i}(shape: Shape{i}): number {{\n"
            f"  if (shape.kind === 'round') {{ return shape.radius * shape.radius * 3; }}\n"
            f"  return shape.side * shape.side;\n"
            f"}}\n{more}" + "".join(part(i, n, is_ts) for n in range(PARTS))
        )


def shared(count, is_ts):
    """One module with as many exports as there are others, each of which imports one of them."""
    yield "m0", "".join(f"export const v{i}: {{a: number, b: string}} = {{a: {i}, b: 's'}};\n" for i in range(1, count))
    for i in range(1, count):
        yield f"m{i}", f"import {{v{i}}} from './m0';\nexport const w{i}: number = v{i}.a;\n"


def chain(count, is_ts, is_ring=False):
    """Modules each of which has a type that leads to that of the one before."""
    for i in range(count):
        j = i - 1 if i else count - 1
        has_other = (i or is_ring) and i != j
        other, prop, value = (f"import type {{T{j}}} from './m{j}';\n", f", b: {maybe(f'T{j}', is_ts)}", ", b: null") if has_other else ("", "", "")
        yield f"m{i}", f"{other}export type T{i} = {{a: number{prop}}};\nexport const v{i}: T{i} = {{a: {i}{value}}};\n"


def ring(count, is_ts):
    """The same, and the first one's leads to that of the last."""
    return chain(count, is_ts, is_ring=True)


def star(count, is_ts):
    """One module that imports a value of each other."""
    for i in range(1, count):
        yield f"m{i}", f"export const v{i}: number = {i};\n"
    imports = "".join(f"import {{v{i}}} from './m{i}';\n" for i in range(1, count))
    yield "m0", imports + "".join(f"export const w{i}: number = v{i};\n" for i in range(1, count))


SHAPES = {"generated": generated, "dense": dense, "shared": shared, "chain": chain, "ring": ring, "star": star}


def write(folder, shape, count, is_ts):
    """Writes the modules, and returns how many bytes and lines they have."""
    os.makedirs(folder, exist_ok=True)
    size = lines = 0
    for name, text in SHAPES[shape](count, is_ts):
        with open(f"{folder}/{name}.{'ts' if is_ts else 'js'}", "w", encoding="utf-8") as file:
            file.write(text)
        size, lines = size + len(text), lines + text.count("\n")
    return size, lines


def spent(words, wanted, **how):
    """The seconds, those of processors, and the peak of memory in MB of a program, which must print what is wanted."""
    begin = time.monotonic()
    child = subprocess.Popen(words, stdin=subprocess.DEVNULL, stdout=subprocess.PIPE, stderr=subprocess.STDOUT, **how)
    printed = child.stdout.read()
    _, status, usage = os.wait4(child.pid, 0)
    seconds = time.monotonic() - begin
    if (os.waitstatus_to_exitcode(status), printed) != (0, wanted):
        sys.exit(f"{words[0]} ended with status {status} and printed {printed[:200]}")
    return seconds, usage.ru_utime + usage.ru_stime, usage.ru_maxrss / 1024


def at_once(words, count):
    """The seconds that so many of a program take at once."""
    begin = time.monotonic()
    children = [subprocess.Popen(words, stdin=subprocess.DEVNULL, stdout=subprocess.DEVNULL) for _ in range(count)]
    if any([child.wait() for child in children]):
        sys.exit(f"{words[0]} failed beside others")
    return time.monotonic() - begin


def middle(ratios):
    """The median of the ratios of all rounds, and between which two the middle half of them lies: what is compared ran in one round."""
    low, median, high = statistics.quantiles(ratios, n=4)
    return f"{median:.2f} ({low:.2f} to {high:.2f})"


def said(who, taken):
    print(f"  {who:15} {taken[0]:7.2f} s {taken[1]:7.2f} s of processors {taken[2]:6.0f} MB", flush=True)


def start_of_tsc():
    """What TypeScript takes for an empty module."""
    with tempfile.TemporaryDirectory() as room:
        with open(f"{room}/a.ts", "w", encoding="utf-8") as file:
            file.write("export {};\n")
        taken = spent([*TSC, "a.ts"], b"", cwd=room)
    said("tsc, its start", taken)
    return taken


def words_of(count, workers=None):
    """The words of flowd before the folder, for so many modules and workers."""
    return [*(["--modules", str(count)] if count > MODULES else []), *(["--workers", str(workers)] if workers else [])]


def compare(shape, count, start, workers=(None,)):
    """Times the load with each number of workers, and TypeScript's compiler over the same modules."""
    with tempfile.TemporaryDirectory() as room:
        size, lines = write(f"{room}/js", shape, count, False)
        write(f"{room}/ts", shape, count, True)
        print(f"{shape}: {count} modules, {lines} lines, {size / 1e6:.2f} MB")
        told, rounds = b"recheck 1: %d parsed, %d checked, 0 errors\n" % (count, count), ROUNDS[count <= SMALL] if workers[0] else 1
        # (in turn, since a processor may be faster at one time than at another)
        loads, others = [], []
        for _ in range(rounds):
            loads.append({n: spent([FLOWD, *words_of(count, n), f"{room}/js"], told) for n in workers})
            others.append({n: at_once([FLOWD, *words_of(count, 1), f"{room}/js"], n) for n in workers[1:]})
        ours = {n: min(load[n] for load in loads) for n in workers}
        for n in workers:
            said(f"flowd, {n} worker{'s' * (n > 1)}" if n else "flowd", ours[n])
        theirs = spent([*TSC, *sorted(os.listdir(f"{room}/ts"))], b"", cwd=f"{room}/ts")
        said("tsc", theirs)
        first = workers[0]
        for n in workers[1:]:
            faster = middle(load[first][0] / load[n][0] for load in loads)
            least = f"{ours[first][0] / ours[n][0]:.2f} by the least time of each"
            print(f"  {n} workers: {faster} times as fast as {first}, {least}", flush=True)
            machine = middle(n * load[first][0] / other[n] for load, other in zip(loads, others))
            print(f"  {n} programs with one worker each at once: {machine} times as much in the time of one", flush=True)
        best = ours[workers[-1]]
        parts = best[0] / theirs[0], best[1] / theirs[1], best[1] / (theirs[1] - start[1]), best[2] / theirs[2]
        print("  of TypeScript's: %.3f of the time, %.3f of processors, %.3f without its start, %.3f of the memory" % parts, flush=True)


def top(shape, count, workers=None):
    with tempfile.TemporaryDirectory() as room:
        write(f"{room}/js", shape, count, False)
        subprocess.run(["perf", "record", "-q", "-o", f"{room}/perf", FLOWD, *words_of(count, workers), f"{room}/js"], stdin=subprocess.DEVNULL, check=True)
        report = ["perf", "report", "-i", f"{room}/perf", "--stdio", "-q", "--sort", "symbol"]
        rows = subprocess.run(report, stdout=subprocess.PIPE, check=True).stdout.decode().splitlines()
        print("\n".join([row for row in rows if row.strip()][:10]))


def shares(shape, count, workers):
    """Counts the instructions of a load, thread by thread, with each number of workers."""
    with tempfile.TemporaryDirectory() as room:
        write(f"{room}/js", shape, count, False)
        first = None
        for n in workers:
            counted = f"{room}/{n}"
            # (without the second word one thread may run long before another has its turn, and takes what the other would have taken)
            tool = ["valgrind", "--tool=callgrind", "--fair-sched=yes", "--separate-threads=yes", f"--callgrind-out-file={counted}"]
            subprocess.run([*tool, FLOWD, *words_of(count, n), f"{room}/js"], stdin=subprocess.DEVNULL, capture_output=True, check=True)
            threads = []
            for name in glob.glob(f"{counted}-*"):
                with open(name, encoding="utf-8") as file:
                    threads += [int(line.split()[1]) for line in file if line.startswith("totals:")]
            first = first or sum(threads)
            shown = f"{sum(threads) / 1e6:.0f} million instructions, the most by one thread {max(threads) / 1e6:.0f}"
            print(f"{n} worker{'s' * (n > 1)}: {shown}, {first / max(threads):.2f} times fewer than {workers[0]} takes", flush=True)


def main(words):
    if words[:1] == ["write"]:
        write(words[1], words[2], int(words[3]), words[4:] == ["ts"])
    elif words[:1] == ["shares"]:
        shares(words[1], int(words[2]), [int(n) for n in words[3].split(",")])
    elif words[:1] == ["top"]:
        top(words[1], *map(int, words[2:]))
    else:
        workers, rows = (None,), [("generated", 300), ("generated", 1000), ("dense", 300)]
        if words[:1] == ["--workers"]:
            workers, rows = [int(n) for n in words[1].split(",")], [("dense", 300), ("generated", 4096), ("generated", 30)]
            words = words[2:]
        start = start_of_tsc()
        for row in [(words[0], int(count)) for count in words[1:]] or rows:
            compare(*row, start, workers)


if __name__ == "__main__":
    main(sys.argv[1:])
