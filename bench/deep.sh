#!/usr/bin/env bash
# Checks of modules with types that are deep, on a stack of 1 GiB: arrays, objects and functions in one another, as lines like
# `let x1 = {a: x0};` make them, and arrays as `number[][]` writes them. The deepest is told in an error, or it is assigned to,
# or joined with, another one that is made alike. Each line: the shape, the use, the depth, the number of errors, the seconds.
# deep.sh bytes: looks for the deepest that a stack of 8 MiB takes, and prints the bytes a level.
# `rt run` in crates/check_cases builds the program that it measures.
cd "$(dirname "$0")" || exit 1
program=${PROGRAM:-../crates/check_cases/out/check_cases}
[ -x "$program" ] || { echo "build it first: rt run in crates/check_cases" >&2; exit 1; }
module=$(mktemp)
trap 'rm -f "$module"' EXIT
ulimit -c 0
TIMEFORMAT='%R s'

write() { # SHAPE USE DEPTH
    node - "$@" >"$module" <<'END'
const [shape, use, depth] = process.argv.slice(2), n = Number(depth);
const deeper = {arrays: (x) => `[${x}]`, objects: (x) => `{a:${x}}`, functions: (x) => `()=>${x}`}[shape];
const line = (_, i) => `let x${i + 1}=${deeper('x' + i)};` + (use === 'told' ? '' : `let y${i + 1}=${deeper('y' + i)};`);
const lines = () => 'let x0=1;let y0=2;' + Array.from({length: n}, line).join('');
const last = {told: `const e:null=x${n};`, assigned: `x${n}=y${n};`, joined: `const j=console?x${n}:y${n};`}[use];
console.log(`errors\t\t${deeper ? lines() + last : `const x:number${'[]'.repeat(n)}=1;`}`);
END
}

check() { # STACK
    (ulimit -s "$1" && exec "$program" <"$module")
}

survives() { # SHAPE USE DEPTH
    write "$@"
    check 8192 >/dev/null 2>&1
}

deepest() { # SHAPE USE MOST
    local low=0 high=$3 middle
    if survives "$1" "$2" "$high"; then echo "$1, $2: more than $high levels"; return; fi
    while [ $((high - low)) -gt 64 ]; do
        middle=$(((low + high) / 2))
        if survives "$1" "$2" "$middle"; then low=$middle; else high=$middle; fi
    done
    echo "$1, $2: $((8388608 / high)) bytes a level"
}

look() { # SHAPE USE DEPTH
    write "$@"
    echo "$1, $2: $3 deep,$({ time check 1048576; } 2>&1 | cut -f 1,2 | tr -s '\t\n' ' ' | sed 's/^/ /')"
}

run=look
[ "${1-}" = bytes ] && run=deepest
for shape in arrays objects functions; do
    for use in told assigned joined; do $run "$shape" "$use" 20000; done
done
$run "written arrays" told 520000
