#!/usr/bin/env python3
"""Times what a job costs beside itself: 100,000 fronts of empty sources, dealt out to workers, beside the same fronts by one analyst.

    bench/fronts.py [COUNT]       100,000 where no count is said

It makes a program of its own over the crates, compiled with no proof as `./build --unproved` does but optimized, and runs it with 1, 2
and 4 workers, and without any. A line tells the time of all fronts and of what is added to each one, the median of ROUNDS runs.
"""

import importlib.machinery
import importlib.util
import os
import shutil
import statistics
import subprocess
import sys
import tempfile
import time

TOP = os.path.dirname(os.path.dirname(os.path.abspath(__file__)))
ROUNDS = 9
NAME = "fronts_bench"
USES = "worker_jobs flow_analyst analyst source_front flow_base flow_values"
PROGRAM = """//! Reads so many empty sources, by so many workers, or by one analyst where the number is 0.
#![tactic(auto)]

use analyst::Analyst;
use flow_analyst::FlowAnalyst;
use flow_base::NoMemory;
use flow_values::{List, Text};
use std::alloc::Global;
use std::env;
use std::process::ExitCode;
use std::sync::Wait;
use std::thread::Threads;
use worker_jobs::run_fronts;

fn alone(alloc: Global, jobs: &[Text]) -> Result<usize, NoMemory> {
    let mut analyst = FlowAnalyst::new(alloc);
    let mut parses = List::new(alloc);
    for job in jobs {
        parses.push(analyst.front(job)?)?;
    }
    Ok(parses.len())
}

fn by_workers<R: Threads + Wait + Sync>(rt: &R, alloc: Global, workers: usize, jobs: &[Text]) -> Result<usize, NoMemory> {
    let mut analysts = Vec::new(alloc);
    for _ in 0..workers {
        analysts.push(FlowAnalyst::new(alloc))?;
    }
    Ok(run_fronts(rt, alloc, analysts.as_mut_slice(), jobs)?.len())
}

fn words(rt: &HostRuntime) -> Result<(usize, usize), NoMemory> {
    let mut numbers = Vec::new(rt.alloc());
    if let Ok(all) = env::args(rt) {
        for word in all.skip(1) {
            numbers.push(word.as_str().parse::<usize>().unwrap_or(0))?;
        }
    }
    Ok((numbers[0], numbers[1]))
}

fn run<R: Threads + Wait + Sync>(threads: &R, rt: &HostRuntime) -> Result<usize, NoMemory> {
    let alloc = rt.alloc();
    let (count, workers) = words(rt)?;
    let mut jobs = List::new(alloc);
    for _ in 0..count {
        jobs.push(Text::from_bytes(alloc, &[])?)?;
    }
    if workers == 0 {
        return alone(alloc, jobs.as_slice());
    }
    by_workers(threads, alloc, workers, jobs.as_slice())
}

fn main(rt: HostRuntime) -> ExitCode {
    match run(&rt, &rt) {
        Ok(_) => ExitCode::from(0),
        Err(NoMemory) => ExitCode::from(70),
    }
}
"""


def builder():
    loader = importlib.machinery.SourceFileLoader("flowd_build", f"{TOP}/build")
    made = importlib.util.module_from_spec(importlib.util.spec_from_loader("flowd_build", loader))
    loader.exec_module(made)
    return made


def compiled(room, crate_name, uses, program):
    """A program over the crates, in a copy of the repository that has it as a crate more."""
    build, top = builder(), f"{room}/repository"
    os.makedirs(f"{top}/crates/{crate_name}/src")
    for name in os.listdir(f"{TOP}/crates"):
        shutil.copytree(f"{TOP}/crates/{name}", f"{top}/crates/{name}", ignore=shutil.ignore_patterns("out"))
    shutil.copyfile(f"{TOP}/HANDLES", f"{top}/HANDLES")
    with open(f"{TOP}/crates.txt", encoding="utf-8") as crates, open(f"{top}/crates.txt", "w", encoding="utf-8") as to:
        to.write(f"{crates.read()}{crate_name}: {uses}\n")
    with open(f"{top}/crates/{crate_name}/src/main.rt", "w", encoding="utf-8") as to:
        to.write(program)
    rtlib = build.toolchain()
    os.chdir(f"{top}/crates/{crate_name}")
    crate = rtlib.Crate(os.getcwd(), top, {})
    kept, made = f"{room}/program.bc", f"{room}/{crate_name}"
    words = build.words_of_try(rtlib, crate, build.toolchain_that_keeps(rtlib.KIT, room, kept))
    how = {"stdin": subprocess.DEVNULL, "stdout": subprocess.DEVNULL, "stderr": subprocess.PIPE, "errors": "replace"}
    tried = subprocess.run(words, env={**os.environ, "TMPDIR": room}, **how)
    if not os.path.isfile(kept):
        sys.exit(f"the sources were not compiled: {tried.stderr.strip()}")
    linked = build.link(rtlib.KIT, kept, made, optimized=True)
    if linked.returncode:
        sys.exit(f"the program was not linked: {linked.stderr.strip()}")
    return made


def timed(words):
    began = time.monotonic()
    status = subprocess.run(words).returncode
    if status:
        sys.exit(f"{' '.join(words)} ended with {status}")
    return time.monotonic() - began


def main(count):
    with tempfile.TemporaryDirectory(prefix="flowd-fronts-") as room:
        program = compiled(room, NAME, USES, PROGRAM)
        rounds = [[timed([program, str(count), str(workers)]) for workers in (0, 1, 2, 4)] for _ in range(ROUNDS)]
        alone, *others = [statistics.median(it[at] for it in rounds) for at in range(4)]
        print(f"{count} empty fronts by one analyst: {alone * 1e3:.1f} ms")
        for workers, (at, took) in zip((1, 2, 4), enumerate(others, 1)):
            added = statistics.median(it[at] - it[0] for it in rounds)
            print(f"by {workers} workers: {took * 1e3:.1f} ms, {added / count * 1e6:+.2f} microseconds a job")


if __name__ == "__main__":
    if len(sys.argv) > 2 or not all(it.isdigit() for it in sys.argv[1:]):
        sys.exit(__doc__.strip())
    main(int(sys.argv[1]) if len(sys.argv) == 2 else 100_000)
