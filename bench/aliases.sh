#!/usr/bin/env bash
# The time to read aliases, to build a table of them and to ask of the last one: in one module a chain, a cycle through all, all that
# name the first one, and rows of 50, each of which names those of the row before; and in `flowd` modules of 50 aliases, each of
# which names those of the module before, so that each module's table has those of all before it.
# Each line: the shape, how many aliases it has, the answer or what is printed, the milliseconds of the processor in the shortest of
# five runs, less those of an empty run, and the microseconds an alias, which are to stay.
# `rt run` in crates/type_cases and ./build build the programs that it measures.
cd "$(dirname "$0")" || exit 1
program=${PROGRAM:-../crates/type_cases/out/type_cases}
flowd=${FLOWD:-../crates/flowd/out/flowd}
[ -x "$program" ] && [ -x "$flowd" ] || { echo "build them first: rt run in crates/type_cases, and ./build" >&2; exit 1; }
folder=$(mktemp -d)
trap 'rm -rf "$folder"' EXIT
TIMEFORMAT='%3U %3S'

# best COMMAND..: the processor's seconds of the shortest of five runs of it on the file `asked`
best() {
    for _ in 1 2 3 4 5; do
        { time "$@" <"$folder/asked" >"$folder/told"; } 2>&1
    done | awk '{ took = $1 + $2 } NR == 1 || took < least { least = took } END { print least }'
}

# tell NAME COUNT EMPTY TOOK
tell() {
    awk -v name="$1" -v count="$2" -v empty="$3" -v took="$4" -v told="$(head -c 60 "$folder/told" | head -n 1 | cut -f 1)" \
        'BEGIN { printf "%s: %d, %s, %.0f ms, %.2f microseconds each\n", name, count, told, (took - empty) * 1e3, (took - empty) * 1e6 / count }'
}

# one NAME SCRIPT: the script makes the type of alias i of n
one() {
    local count took
    for count in 4096 16384 65536; do
        node -e "const n = $count; console.log('# subtyping\n' + ['A' + (n - 1), 'null | void | number', ...Array.from({length: n}, (_, i) => 'A' + i + ' = ' + ($2))].join('\t'))" >"$folder/asked"
        took=$(best "$program")
        sed -i 1d "$folder/told"
        tell "$1" "$count" "$empty" "$took"
    done
}

: >"$folder/asked"
empty=$(best "$program")
one "a chain" "i ? 'A' + (i - 1) : 'number'"
one "a cycle" "'A' + ((i || n) - 1)"
one "all name the first" "i ? '?A0' : 'number'"
one "rows of 50" "i < 50 ? 'number' : '?A' + (i - 50)"
mkdir "$folder/modules"
: >"$folder/asked"
empty=$(best "$flowd" "$folder/modules")
for count in 32 64 128; do
    node -e "const names = Array.from({length: 50}, (_, i) => i);
        for (let m = 0; m < $count; m++) {
            const from = m ? 'import type {' + names.map((i) => 'A' + i + ' as B' + i).join(', ') + \"} from './m\" + (m - 1) + \"';\" : '';
            const own = names.map((i) => 'export type A' + i + ' = ' + (m ? '?B' + i : 'number') + ';');
            require('fs').writeFileSync('$folder/modules/m' + m + '.js', from + own.join(''));
        }"
    tell "aliases in the tables of $count modules" $((25 * count * (count + 1))) "$empty" "$(best "$flowd" "$folder/modules")"
done
