#!/usr/bin/env bash
# Merging in waves: microseconds a module or an export, lexing, reading and extracting included, for growing programs.
# `rt run` in crates/module_cases builds the program that it measures.
cd "$(dirname "$0")" || exit 1
program=../crates/module_cases/out/module_cases
[ -x "$program" ] || { echo "build it first: rt run in crates/module_cases" >&2; exit 1; }
folder=$(mktemp -d)
trap 'rm -rf "$folder"' EXIT

measure() {
    local name=$1 count=$2 each=$3 start end
    start=$(date +%s.%N)
    "$program" <"$folder/program" >"$folder/told" || exit 1
    end=$(date +%s.%N)
    awk -v name="$name" -v count="$count" -v each="$each" -v start="$start" -v end="$end" -v lines="$(tail -n +2 "$folder/told" | wc -l)" \
        'BEGIN { printf "%s: %d, %.2f s, %.2f microseconds each of %d (%d lines told)\n", name, count, end - start, (end - start) * 1e6 / each, each, lines }'
}

path='(i) => "m" + String(i).padStart(5, "0")'
for count in 1024 2048 4096; do
    node -e "console.log('# merging'); const path = $path; let s = []; for (let i = 0; i < $count; i++) s.push(path(i) + '.js', i + 1 < $count ? \"export {x} from './\" + path(i + 1) + \"';\" : 'export const x: number = 1;'); console.log(s.join('\t'))" >"$folder/program"
    measure "modules in a chain of re-exports" "$count" "$count"
done
for count in 2500 5000 10000; do
    node -e "console.log('# merging'); let m = ''; for (let k = 0; k < $count; k++) m += 'import {x as x' + k + \"} from './m\" + k + \"'; \"; console.log(['a.js', m].join('\t'))" >"$folder/program"
    measure "specifiers of one module" "$count" "$count"
done
for count in 250 500 1000; do
    node -e "console.log('# merging'); const path = $path; let s = []; for (let i = 0; i < $count; i++) { let m = 'export type T = {}; '; for (let k = 0; k < $count; k++) if (k !== i) m += 'import type {T as T' + k + \"} from './\" + path(k) + \"'; \"; s.push(path(i) + '.js', m + 'export type U = {p: T' + (i + 1) % $count + '};'); } console.log(s.join('\t'))" >"$folder/program"
    measure "modules that import each other" "$count" "$((count * count))"
done
for count in 2500 5000 10000; do
    node -e "console.log('# merging'); const path = $path; let all = []; for (let k = 0; k < $count; k++) all.push('x' + k); let s = ['a.js', all.map((x) => 'export const ' + x + ': number = 1;').join(' ')]; for (let i = 0; i < 100; i++) s.push(path(i) + '.js', 'export {' + all.join(', ') + \"} from './a';\"); console.log(s.join('\t'))" >"$folder/program"
    measure "exports, re-exported by 100 modules" "$count" "$((count * 100))"
done
