#!/usr/bin/env bash
# The running heap, in nanoseconds. A lane pins and ends a snapshot, alone and with 1, 4 and 15 lanes that do so beside it (a heap has 16
# at most), against two bare `fetch_add`s by as many threads in the same run: the aim is within twice. Then a transaction, `begin` and
# `commit` and what is staged between them, with 1 and 16 lanes: its time is to grow with what is staged, and not with the modules that
# the heap has room for. Of some rounds the least, the median and the most are told.
# `rt run` in crates/heap_runs builds the program that it measures.
cd "$(dirname "$0")" || exit 1
program=${PROGRAM:-../crates/heap_runs/out/heap_runs}
rounds=${ROUNDS:-40}
[ -x "$program" ] || { echo "build it first: rt run in crates/heap_runs" >&2; exit 1; }

# the lines of one round. Each run is short, so that on a busy machine some of them are not interrupted
orders() {
    for beside in 0 1 4 15; do
        times=$((20000 * (beside + 1)))
        echo "pins $((beside + 1)) $times"
        echo "adds $((beside + 1)) $times"
    done
    for modules in 1 256 4096; do
        for lanes in 1 16; do
            for staged in 0 1 4; do transactions; done
        done
    done
    for staged in 16 256 4096; do transactions; done
}

# transactions of so many staged entities
transactions() {
    echo "commits $lanes $modules $staged $((500000 / (20 + 25 * staged * lanes) + 1))"
}

for ((round = 0; round < rounds; round++)); do orders | "$program" || exit 1; done | awk '
    function note(name, value,   at) {
        if (!(name in counts)) order[++names] = name
        at = ++counts[name]
        for (; at > 1 && values[name, at - 1] > value; at--) values[name, at] = values[name, at - 1]
        values[name, at] = value
    }
    { sub(":", "") }
    $1 == "pins" { pinned = $NF / $3; note("pin and done, beside " $2 - 1 " lanes: ns", pinned) }
    $1 == "adds" {
        note("two bare adds, beside " $2 - 1 " threads: ns", $NF / $3)
        note("pin and done for two bare adds, beside " $2 - 1 ": times", pinned / ($NF / $3))
    }
    $1 == "commits" { note("transaction of " $4 " staged, " $2 " lanes, " $3 " modules: ns", $NF / $5) }
    END {
        for (n = 1; n <= names; n++) {
            name = order[n]
            count = counts[name]
            split(name, parts, ": ")
            printf "%s: %.4g, %.4g, %.4g %s\n", parts[1], values[name, 1], values[name, int((count + 1) / 2)], values[name, count], parts[2]
        }
    }'
