// Writes a source of about a megabyte: modules' worth of types, values and functions.
const lines = [];
let size = 0;
for (let i = 0; size < 1_000_000; i++) {
  const line =
    `const value${i} = {a: ${i}, b: "text \\u{41} ${i}", c: [1.5, 0x${i.toString(16)}, null]}; // line ${i}\n` +
    `function f${i}(x) { if (x.a >= ${i} && x !== null) { return x.a + ${i}; } else { return f${i}(x) ?? 'none'; } }\n`;
  lines.push(line);
  size += line.length;
}
process.stdout.write(lines.join(''));
