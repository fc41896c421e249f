#!/usr/bin/env python3
"""The time of components and waves for chains, cycles and dense graphs, in milliseconds.

    bench/graphs.py

It builds crates/module_cases with `rt run`, writes edges for each shape and size, and times the program on them: reading and
printing them is in it. Twice the size should take about twice the time."""
import os, random, subprocess, sys, time

crate = os.path.join(os.path.dirname(os.path.abspath(__file__)), '..', 'crates', 'module_cases')


def chain(count, edges):
    return [[x + 1] if x + 1 < count else [] for x in range(count)]


def chain_back(count, edges):
    return [[x - 1] if x > 0 else [] for x in range(count)]


def cycle(count, edges):
    return [[(x + 1) % count] for x in range(count)]


def pairs(count, edges):
    return [[x ^ 1, (x + 2) % count] if x + 2 < count else [x ^ 1] for x in range(count)]


def all_to_first(count, edges):
    return [[0] if x > 0 else [] for x in range(count)]


def dense(count, edges):
    chance = random.Random(count)
    lists = [[] for _ in range(count)]
    for _ in range(edges):
        lists[chance.randrange(count)].append(chance.randrange(count))
    return lists


def dense_acyclic(count, edges):
    return [sorted(y for y in ys if y < x) for x, ys in enumerate(dense(count, edges))]


RUNS = [(shape, count, 0) for shape in (chain, chain_back, cycle, pairs, all_to_first) for count in (4096, 50000, 100000, 200000)]
RUNS += [(shape, count, edges) for shape in (dense, dense_acyclic) for count, edges in ((1024, 25000), (4096, 50000), (4096, 100000), (4096, 200000))]


def main():
    if subprocess.run(['rt', 'run'], cwd=crate, stdin=subprocess.DEVNULL, stdout=subprocess.DEVNULL).returncode:
        sys.exit('rt run failed')
    for shape, count, edges in RUNS:
        lists = shape(count, edges)
        text = ('# graphs\n' + str(lists) + '\n').encode()
        start = time.perf_counter()
        answer = subprocess.run([os.path.join(crate, 'out', 'module_cases')], input=text, stdout=subprocess.PIPE).stdout.decode()
        spent = (time.perf_counter() - start) * 1000
        parts = answer.splitlines()[-1].split('\t')
        found = [len(eval(part)) for part in parts[1:]]
        print(f'{shape.__name__:>14} {count:>7} numbers {sum(map(len, lists)):>7} edges: {found[0]:>7} components {found[1]:>7} waves {spent:>8.1f} ms')


main()
