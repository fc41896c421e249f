#!/usr/bin/env bash
# Checking of modules: milliseconds a module and microseconds a part, of the processor, lexing and reading included, for modules that
# grow. In each group of lines the parts double; the time of a part is to stay. In brackets how many errors the module has.
# The last lines are dense code: megabytes a second beyond lexing and reading, which are measured by a source that breaks at its end.
# `rt run` in crates/check_cases builds the program that it measures.
cd "$(dirname "$0")" || exit 1
program=${PROGRAM:-../crates/check_cases/out/check_cases}
[ -x "$program" ] || { echo "build it first: rt run in crates/check_cases" >&2; exit 1; }
folder=$(mktemp -d)
trap 'rm -rf "$folder"' EXIT

# seconds SOURCE: $took is the processor's time for the check of a source of one line, $told the number of its errors
TIMEFORMAT='%3U %3S'
seconds() {
    { printf 'errors\t\t'; cat "$1"; } >"$folder/module"
    { time "$program" <"$folder/module" >"$folder/told"; } 2>"$folder/took" || { cat "$folder/took" >&2; exit 1; }
    told=$(head -c 100 "$folder/told" | cut -f 2)
    took=$(awk '{ print $1 + $2 }' "$folder/took")
}

# best SOURCE: the same, the shortest of five rounds
best() {
    local least=
    for round in 1 2 3 4 5; do
        seconds "$1"
        least=$(awk -v a="${least:-$took}" -v b="$took" 'BEGIN { print a < b ? a : b }')
    done
    took=$least
}

# measure NAME COUNT SCRIPT: a module that the script makes from `n`
measure() {
    node -e "const n = $2; const times = (k, f) => Array.from({length: k}, (_, i) => f(i)).join(''); console.log($3)" >"$folder/source"
    seconds "$folder/source"
    awk -v name="$1" -v count="$2" -v took="$took" -v told="$told" \
        'BEGIN { printf "%s: %d, %.0f ms, %.1f microseconds each (%s)\n", name, count, took * 1e3, took * 1e6 / count, told }'
}

# each NAME COUNT SCRIPT: a module with a quarter of the parts, half of them, and all
each() {
    for part in 4 2 1; do measure "$1" $(($2 / part)) "$3"; done
}

# depths NAME SCRIPT: 7,200 parts, `deep` in one another or inside so many others; 200 is the limit
depths() {
    for deep in 45 90 180; do measure "$1, $deep deep" 7200 "((deep) => $2)($deep)"; done
}

head='function f(a: number | string | null | void, b: boolean) { let c: number | string | null = null; '

# Expressions
each "links, properties" 100000 "'type T = {t: T}; function f(a: T) { const x: T = a' + '.t'.repeat(n) + '; }'"
each "links, calls" 100000 "'type T = () => T; function f(a: T) { const x: T = a' + '()'.repeat(n) + '; }'"
each "links, elements" 100000 "'type T = Array<T>; function f(a: T) { const x: T = a' + '[0]'.repeat(n) + '; }'"
each "operands of a sum" 100000 "'const x: number = 1' + ' + 1'.repeat(n) + ';'"
each "properties against an object" 1000 "'const x: {' + times(n, (i) => 'p' + i + ': number, ') + '} = {' + times(n, (i) => 'p' + i + ': ' + i + ', ') + '};'"
each "properties of a literal" 10000 "'const x = {' + times(n, (i) => 'p' + i + ': ' + i + ', ') + '};'"
each "arguments, in 100 calls" 200 "'function g(' + times(n, (i) => 'p' + i + ': number, ').slice(0, -2) + '): void { } ' + times(100, () => 'g(' + times(n, (i) => i + ', ').slice(0, -2) + '); ')"
each "names in 180 scopes" 4000 "'function f() { ' + times(180, (k) => '{ ' + times(n, (i) => i % 180 === k ? 'const x' + i + ': number = 1; ' : '')) + times(n, (i) => 'x' + i + '; ') + '}'.repeat(181)"
depths "blocks" "times(n / deep, (i) => 'function f' + i + '() { ' + times(deep, (k) => '{ const x' + k + ': number = 1; ') + '}'.repeat(deep) + ' } ')"
depths "arrows" "times(n / deep, (i) => 'const f' + i + ' = ' + times(deep, (k) => '(x' + k + ': number) => ') + '1; ')"
for facts in 250 500 1000; do
    facts_head="'$head' + times($facts, (i) => 'let v' + i + ': number | null = 1; ')"
    measure "expressions with $facts facts, variables" 10000 "$facts_head + times(n, (i) => 'c = v' + i % $facts + '; ') + '}'"
    measure "expressions with $facts facts, and" 10000 "$facts_head + times(n, (i) => 'a && v' + i % $facts + '; ') + '}'"
    measure "expressions with $facts facts, conditionals" 10000 "$facts_head + times(n, (i) => 'c = b ? v' + i % $facts + ' : null; ') + '}'"
    measure "expressions with $facts facts, calls" 10000 "'function g(p: number): void { } ' + $facts_head + times(n, (i) => 'g(v' + i % $facts + '); ') + '}'"
    measure "expressions with $facts facts, breaks" 1000 "$facts_head + 'while (b) { ' + times(n, (i) => 'if (b) { c = 1; break; } ') + '} }'"
    measure "expressions with $facts facts, arrows" 1000 "$facts_head + times(n, (i) => 'const g' + i + ' = (p: number): number => p; ') + '}'"
    measure "expressions with $facts facts, loops" 1000 "$facts_head + times(n, (i) => 'while (b) { c = 1; } ') + '}'"
done

# Statements
depths "ifs" "times(n / deep, (i) => '$head'.replace('f(', 'f' + i + '(') + times(deep, () => 'if (a != null) { ') + 'c = a;' + ' }'.repeat(deep) + ' } ')"
depths "loops" "times(n / deep, (i) => '$head'.replace('f(', 'f' + i + '(') + times(deep, () => 'while (b) { ') + 'c = 1;' + ' }'.repeat(deep) + ' } ')"
statements="times(n, (i) => 'c = ' + i + '; ')"
depths "statements inside blocks" "'$head' + '{ '.repeat(deep) + $statements + '} '.repeat(deep) + '}'"
depths "statements inside loops" "'$head' + 'while (b) { '.repeat(deep) + $statements + '} '.repeat(deep) + '}'"
depths "statements inside arrows" "'const g = ' + '(p: number) => '.repeat(deep) + '{ let c: number = 0; ' + $statements + '};'"
each "arms of else-if" 10000 "'$head' + times(n, (i) => 'if (b) { c = 1; } else ') + '{ c = null; } }'"
each "arms of else-if, another variable each" 4000 "'$head' + times(n, (i) => 'let v' + i + ': number | null = null; ') + times(n, (i) => 'if (b) { v' + i + ' = 1; } else ') + '{ c = null; } }'"
each "arms of else-if, another literal each" 10000 "'$head' + times(n, (i) => 'if (a === ' + i + ') { c = a; } else ') + '{ c = null; } }'"
each "statements" 20000 "'$head' + $statements + '}'"
each "functions" 20000 "times(n, (i) => 'function f' + i + '(p: number): number { return p; } ')"
each "arrows" 10000 "times(n, (i) => 'const x' + i + ' = (p: number): number => p; ')"
each "arrows behind as many constants" 1000 "times(n, (i) => 'const x' + i + ': number = ' + i + '; ') + times(n, (i) => 'const f' + i + ' = (p: number): number => p; ')"
each "declarations" 10000 "times(n, (i) => 'const x' + i + ': number = ' + i + '; ')"
each "names, each used" 10000 "times(n, (i) => 'const x' + i + ': number = ' + (i ? 'x' + (i - 1) : '0') + '; ')"
each "names of a function, each used" 10000 "'function f() { ' + times(n, (i) => 'const x' + i + ': number = ' + (i ? 'x' + (i - 1) : '0') + '; ') + '}'"
each "errors, names" 100000 "'function f() { ' + times(n, (i) => 'g(); ') + '}'"
each "errors, types" 100000 "'function f(c: number) { ' + times(n, (i) => 'c = \"\"; ') + '}'"
each "narrowings of one variable, and" 4000 "'$head' + 'if (b' + times(n, (i) => ' && a !== ' + i) + ') { c = 1; } }'"
each "narrowings of one variable, or" 4000 "'$head' + 'if (b' + times(n, (i) => ' || a === ' + i) + ') { c = 1; } }'"
each "narrowings of one variable, ifs" 4000 "'$head' + times(n, (i) => 'if (a === ' + i + ') { return; } ') + '}'"
each "joins" 5000 "'$head' + times(n, (i) => 'if (b) { c = ' + i + '; } else { c = null; } ') + '}'"
each "joins of conditionals" 5000 "'$head' + times(n, (i) => 'c = b ? ' + i + ' : null; ') + '}'"
each "loops" 5000 "'$head' + times(n, (i) => 'while (b) { c = ' + i + '; } ') + '}'"
each "breaks" 5000 "'$head' + 'while (b) { ' + times(n, (i) => 'if (b) { c = ' + i + '; break; } ') + '} }'"
each "calls that drop facts" 5000 "'function g(p: number): void { } $head' + times(n, (i) => 'g(' + i + '); ') + '}'"

# Dense code
node dense.js >"$folder/dense.js"
lines=$(wc -l <"$folder/dense.js")
for parts in 16 4 1; do
    head -n $((lines / parts)) "$folder/dense.js" | tr '\n' ' ' >"$folder/source"
    { cat "$folder/source"; echo ')'; } >"$folder/broken"
    best "$folder/broken"
    reading=$took
    best "$folder/source"
    awk -v bytes="$(wc -c <"$folder/source")" -v reading="$reading" -v took="$took" -v told="$told" \
        'BEGIN { printf "dense code: %d bytes, %.0f ms, of them %.0f ms for lexing and reading, %.1f MB/s beyond (%s)\n", bytes, took * 1e3, reading * 1e3, bytes / (took - reading) / 1e6, told }'
done
