// Writes a source of about a megabyte: bodies of statements.
const lines = [];
let size = 0;
for (let i = 0; size < 1_000_000; i++) {
  const line =
    `function work${i}(items: Array<number>, limit: number): number { let total: number = 0; let index: number = 0; ` +
    `while (index < limit) { const item = items[index]; if (item > ${i} && item !== limit) { total = total + item * 2 - index; ` +
    `helper.call(item, [total, index], {a: item, b: total}); } else if (item === 0) { break; } else { total = (total - 1) % 7; } ` +
    `index = index + 1; } return total; }\n`;
  lines.push(line);
  size += line.length;
}
process.stdout.write(lines.join(''));
