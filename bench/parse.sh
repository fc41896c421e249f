#!/usr/bin/env bash
# Lexing and reading of modules: megabytes a second and the peak of memory, on declarations and on dense code, each from 64 KiB
# to a megabyte, beside TypeScript's own parser; and chains of 100,000 operators, which take time in proportion. Both read ten times
# before their ten measured rounds, and measure by a clock of their own; ours lets go of tokens and tree within its rounds.
# `rt run` in crates/text_cases builds the program that it measures.
cd "$(dirname "$0")" || exit 1
program=../crates/text_cases/out/text_cases
[ -x "$program" ] || { echo "build it first: rt run in crates/text_cases" >&2; exit 1; }
folder=$(mktemp -d)
trap 'rm -rf "$folder"' EXIT
node source.js >"$folder/declarations.js"
node dense.js >"$folder/dense.js"

measure() {
    local name=$1 file=$2 bytes
    bytes=$(wc -c <"$file")
    /usr/bin/env time -f %M -o "$folder/peak" "$program" whole <"$file" >"$folder/said" || exit 1
    tail -2 "$folder/said" | awk -v name="$name" -v bytes="$bytes" -v peak="$(cat "$folder/peak")" \
        'NR == 1 { said = $0 }
        NR == 2 { printf "%s: %d bytes, %s, %.1f MB/s, %.1f bytes of memory a byte\n", name, bytes, said, bytes * 10 / $1, peak * 1024 / bytes }'
}

for kind in declarations dense; do
    lines=$(wc -l <"$folder/$kind.js")
    for parts in 16 4 1; do
        head -n $((lines / parts)) "$folder/$kind.js" >"$folder/part.js"
        measure "$kind" "$folder/part.js"
    done
    node typescript.js "$folder/$kind.js"
done
for count in 50000 100000; do
    node -e "console.log('x = ' + '!'.repeat($count) + 'a;')" >"$folder/part.js"
    measure "marks" "$folder/part.js"
    node -e "console.log('x = ' + Array($count).fill('a').join(' + ') + ';')" >"$folder/part.js"
    measure "sum" "$folder/part.js"
    # a mark of a conditional opens an entry, so one of them has 200 arms at most
    node -e "console.log(('x = ' + 'a ? b : '.repeat(200) + 'c;\\n').repeat($count / 2000))" >"$folder/part.js"
    measure "conditionals" "$folder/part.js"
    node -e "console.log('function f() { ' + Array($count / 10).fill('if (a) b;').join(' else ') + ' }')" >"$folder/part.js"
    measure "branches" "$folder/part.js"
done
