#!/usr/bin/env python3
"""Times what a stage costs in the running heap, and tells what memory an entity takes there, with 1, 2 and 16 lanes.

    bench/stage.py [MODULES]      room for so many modules, 1 to 4,096, which is the most where no number is said

It makes a program of its own over the crates, as bench/fronts.py does. That one opens a heap with room for the modules, four entities
each and the root, and stages each entity once in a transaction, with a new payload of four bytes, and commits, over and over. A line of
each number of lanes tells the nanoseconds of a stage with the making of its payload, the median and the least of all rounds of RUNS
runs; those of a transaction's begin and commit for each staged entity; the bytes of an entity before anything is staged, by the memory
of a heap for one module beside it; and those that its stages add: two payloads of its own, the committed one and the one before.
"""

import statistics
import subprocess
import sys
import tempfile

from fronts import compiled

RUNS, ROUNDS = 5, 20
LANES = (1, 2, 16)
NAME = "stage_bench"
USES = "entity_heap heap_core flow_values"
PROGRAM = """//! Opens a heap for so many modules with so many lanes, and makes so many transactions that stage each entity once. It prints the
//! nanoseconds of the stages of each, and those of its begin and its commit. Before them and behind them it waits for a line.
#![tactic(auto)]

use entity_heap::{Heap, Writer, open};
use flow_values::NoMemory;
use heap_core::Program;
use std::alloc::Global;
use std::env;
use std::io;
use std::process::ExitCode;
use std::sync::{Arc, Wait};
use std::time::{Clock, Instant};

#[derive(Drop)]
struct Mark {
    number: u32,
}

impl Program for Mark {
    ghost use Rattle.std.specs.Prelude.{refl};

    ghost fits = { λ _ _ _ _. Unit {0} };

    ghost fits_once = { λ _ _ _ _. λ _ _. refl };
}

fn nanos_since(clock: &impl Clock, start: io::Result<Instant>) -> u128 {
    let Ok(start) = start else {
        return 0;
    };
    match start.elapsed(clock) {
        Ok(time) => time.as_nanos(),
        Err(_) => 0,
    }
}

fn round<R: Wait + Clock>(rt: &R, alloc: Global, heap: &Heap<Mark>, writer: &mut Writer<Mark>, entities: u32) -> Result<(u128, u128), NoMemory> {
    let start = Instant::now(rt);
    writer.begin(rt, heap);
    let begun = nanos_since(rt, start);
    let start = Instant::now(rt);
    for e in 0..entities {
        writer.stage(heap, e, Arc::new(alloc, Mark { number: e })?)?;
    }
    let staged = nanos_since(rt, start);
    let start = Instant::now(rt);
    writer.commit(heap);
    Ok((staged, begun + nanos_since(rt, start)))
}

fn words(rt: &HostRuntime) -> Result<(u32, u32, u32), NoMemory> {
    let mut numbers = Vec::new(rt.alloc());
    if let Ok(all) = env::args(rt) {
        for word in all.skip(1) {
            numbers.push(word.as_str().parse::<u32>().unwrap_or(0))?;
        }
    }
    Ok((numbers[0], numbers[1], numbers[2]))
}

fn run<R: Wait + Clock>(waiting: &R, rt: &HostRuntime) -> Result<(), NoMemory> {
    let alloc = rt.alloc();
    let (modules, lanes, rounds) = words(rt)?;
    let root = Arc::new(alloc, Mark { number: 0 })?;
    let absent = Arc::new(alloc, Mark { number: 0 })?;
    let (heap, mut writer, _lanes) = open(alloc, modules, lanes, root, absent)?;
    let mut lines = rt.lines(alloc);
    let _ = println!(rt; "waits");
    let _ = lines.next();
    for _ in 0..rounds {
        let (staged, around) = round(waiting, alloc, &heap, &mut writer, 1 + 4 * modules)?;
        let _ = println!(rt; "{staged} {around}");
    }
    let _ = println!(rt; "waits");
    let _ = lines.next();
    Ok(())
}

fn main(rt: HostRuntime) -> ExitCode {
    match run(&rt, &rt) {
        Ok(()) => ExitCode::from(0),
        Err(NoMemory) => ExitCode::from(70),
    }
}
"""


def memory(program):
    """The bytes of memory that a program has, which waits."""
    with open(f"/proc/{program.pid}/status", encoding="ascii") as told:
        return next(int(it.split()[1]) << 10 for it in told if it.startswith("VmRSS:"))


def rows_of(program):
    """The numbers that a program prints until it waits."""
    for line in program.stdout:
        if line == "waits\n":
            return
        yield tuple(map(int, line.split()))
    sys.exit("the program broke off")


def run(*words):
    """The rows of a run, and its bytes of memory before them and behind them."""
    with subprocess.Popen([str(it) for it in words], stdin=subprocess.PIPE, stdout=subprocess.PIPE, text=True, bufsize=1) as program:
        assert not list(rows_of(program))
        before = memory(program)
        print(file=program.stdin)
        rows = list(rows_of(program))
        behind = memory(program)
        program.communicate("\n")
    return rows, before, behind


def main(modules):
    entities = 4 * modules + 1
    with tempfile.TemporaryDirectory(prefix="flowd-stage-") as room:
        program = compiled(room, NAME, USES, PROGRAM)
        print(f"{entities} entities, of {modules} modules and the root")
        for lanes in LANES:
            runs = [run(program, modules, lanes, ROUNDS) for _ in range(RUNS)]
            small = statistics.median(run(program, 1, lanes, 0)[1] for _ in range(RUNS))
            stage, around = ([row[at] / entities for rows, _, _ in runs for row in rows] for at in (0, 1))
            at_rest = statistics.median(before - small for _, before, _ in runs) / entities
            added = statistics.median(behind - before for _, before, behind in runs) / entities
            print(
                f"{lanes} {'lane' if lanes == 1 else 'lanes'}: a stage {statistics.median(stage):.0f} ns (least {min(stage):.0f}), "
                f"begin and commit {statistics.median(around):.1f} ns; "
                f"an entity {at_rest:.0f} bytes, its stages {added:.0f} more"
            )


if __name__ == "__main__":
    if len(sys.argv) > 2 or not all(it.isdigit() and 1 <= int(it) <= 4096 for it in sys.argv[1:]):
        sys.exit(__doc__.strip())
    main(int(sys.argv[1]) if len(sys.argv) == 2 else 4096)
