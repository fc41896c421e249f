#!/usr/bin/env bash
# The time of one question of subtyping for shapes that grow. Each line: the shape, its size, the answer, the milliseconds of the
# question, and how many times those of the line before they are. They are the processor's in the shortest of five runs, less
# those of a run that reads the same types and aliases and asks whether `any` is below `any`. Tagged objects are asked each with
# each, and coprime cycles meet in so many pairs too: four times is in proportion there.
# `rt run` in crates/type_cases builds the program that it measures.
cd "$(dirname "$0")" || exit 1
program=${PROGRAM:-../crates/type_cases/out/type_cases}
[ -x "$program" ] || { echo "build it first: rt run in crates/type_cases" >&2; exit 1; }
folder=$(mktemp -d)
trap 'rm -rf "$folder"' EXIT
cat >"$folder/shapes.js" <<'END'
const [shape, size, folder] = process.argv.slice(2), n = Number(size);
const list = (count, part) => Array.from({length: count}, (_, i) => part(i));
const literals = (first, back) => list(n, (i) => `"k${first + (back ? n - i : i + 1)}"`).join(' | ');
const objects = (value) => list(n, (i) => `{+k: "k${i}", +v: ${value}}`).join(' | ');
const wide = (value, back) => `{${list(n, (i) => `+p${1e6 + (back ? n - i : i)}: ${value}`).join(', ')}}`;
const tower = (word, end) => [`${word}0 = ${end}`, ...list(n, (i) => `${word}${i + 1} = $ReadOnlyArray<${word}${i}>`)];
const cycle = (word, count, end) => list(count, (i) => `${word}${i} = {+k: ${word}${(i + 1) % count}, +v: ${i + 1 < count ? 'string' : end}}`);
// two types, and the aliases that they name
const [a, b, ...aliases] = {
    'a union of literals, and the same in the other order': () => [literals(0, false), literals(0, true)],
    'the same with one literal that the other lacks': () => [literals(0, false), literals(1, true)],
    'tagged objects, and wider ones': () => [objects('1'), objects('number')],
    'objects of many properties, and wider ones': () => [wide('1', false), wide('number', false)],
    'the same with keys that fall': () => [wide('1', true), wide('number', true)],
    'arrays in one another, both ways': () => ['N' + '[]'.repeat(n), 'number' + '[]'.repeat(n), 'N = number'],
    'read-only arrays in one another, by names': () => ['A' + n, 'B' + n, ...tower('A', '1'), ...tower('B', 'number')],
    'two cycles of aliases that are alike': () => ['A0', 'B0', ...cycle('A', n, 'string'), ...cycle('B', n, 'string')],
    'two cycles of aliases that differ at the end': () => ['A0', 'B0', ...cycle('A', n, 'number'), ...cycle('B', n, 'string')],
    'two cycles of coprime lengths': () => ['A0', 'B0', ...cycle('A', n, 'string'), ...cycle('B', n + 1, 'string')],
}[shape]();
const write = (name, fields) => require('fs').writeFileSync(`${folder}/${name}`, '# subtyping\n' + fields.join('\t') + '\n');
write('asked', [a, b, ...aliases]);
write('read', ['any', 'any', `First = ${a}`, `Second = ${b}`, ...aliases]);
END
TIMEFORMAT='%3U %3S'
best() { # FILE: the processor's seconds of the shortest of five runs on it
    for _ in 1 2 3 4 5; do { time "$program" <"$folder/$1" >"$folder/told"; } 2>&1; done |
        awk '{ took = $1 + $2 } NR == 1 || took < least { least = took } END { print least }'
}
grow() { # SHAPE SIZE..
    local shape=$1 size before=0 took
    for size in "${@:2}"; do
        node "$folder/shapes.js" "$shape" "$size" "$folder" || exit 1
        took=$(awk -v read="$(best read)" -v asked="$(best asked)" 'BEGIN { print (asked - read) * 1e3 }')
        awk -v name="$shape: $size" -v answer="$(tail -n 1 "$folder/told" | cut -f 1)" -v took="$took" -v before="$before" \
            'BEGIN { printf "%s, %s, %.0f ms%s\n", name, answer, took, (before > 0 ? sprintf(", x %.1f", took / before) : "") }'
        before=$took
    done
}
for shape in 'a union of literals, and the same in the other order' 'the same with one literal that the other lacks'; do grow "$shape" 8000 16000 32000; done
grow 'tagged objects, and wider ones' 200 400 800
for shape in 'objects of many properties, and wider ones' 'the same with keys that fall' 'arrays in one another, both ways' \
    'read-only arrays in one another, by names' 'two cycles of aliases that are alike' 'two cycles of aliases that differ at the end'; do
    grow "$shape" 4000 8000 16000
done
grow 'two cycles of coprime lengths' 79 158 316
