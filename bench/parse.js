// Node's own parse of a source, so many times over: megabytes a second.
const vm = require('vm');
const fs = require('fs');
const source = fs.readFileSync(process.argv[2], 'utf8');
const rounds = 50;
const start = process.hrtime.bigint();
for (let i = 0; i < rounds; i++) new vm.Script(source + '//' + i);
const seconds = Number(process.hrtime.bigint() - start) / 1e9;
console.log(`node's parse: ${((source.length * rounds) / 1e6 / seconds).toFixed(1)} MB/s`);
