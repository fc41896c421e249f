#!/usr/bin/env bash
# Local signatures: microseconds an export, an alias or an import, lexing and reading included, for growing modules.
# `rt run` in crates/module_cases builds the program that it measures.
cd "$(dirname "$0")" || exit 1
program=../crates/module_cases/out/module_cases
[ -x "$program" ] || { echo "build it first: rt run in crates/module_cases" >&2; exit 1; }
folder=$(mktemp -d)
trap 'rm -rf "$folder"' EXIT

measure() {
    local name=$1 count=$2 start end told
    start=$(date +%s.%N)
    "$program" <"$folder/module" >"$folder/told" || exit 1
    end=$(date +%s.%N)
    told=$(tail -n 1 "$folder/told")
    awk -v name="$name" -v count="$count" -v start="$start" -v end="$end" -v told="$told" \
        'BEGIN { printf "%s: %d, %.2f microseconds each (%s)\n", name, count, (end - start) * 1e6 / count, told }'
}

for count in 2500 5000 10000; do
    node -e "console.log('# counts'); let s = ''; for (let i = 0; i < $count; i++) s += 'export const a' + i + ': {p: number, q: ?string} = 1; '; console.log(s)" >"$folder/module"
    measure "exports" "$count"
    node -e "console.log('# counts'); let s = 'export type A = T0; '; for (let i = 0; i < $count; i++) s += 'type T' + i + ' = {next: T' + (i + 1) + '}; '; console.log(s)" >"$folder/module"
    measure "aliases that lead to one another" "$count"
    node -e "console.log('# counts'); let s = ''; for (let i = 0; i < $count; i++) s += 'import type {T' + i + \"} from './m\" + i + \"'; \"; for (let i = 0; i < $count; i++) s += 'export type E' + i + ' = T' + i + '; '; console.log(s)" >"$folder/module"
    measure "imports that exports lead to" "$count"
    node -e "console.log('# counts'); let s = 'function f('; for (let i = 0; i < $count; i++) s += 'a' + i + ': number, '; s += '): number { return 1; } export {'; for (let i = 0; i < $count; i++) s += 'f as g' + i + ', '; console.log(s + '};')" >"$folder/module"
    measure "parameters of a function of as many names" "$count"
done
