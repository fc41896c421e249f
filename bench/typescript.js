// TypeScript's parse of a source (Debian's node-typescript), warm, so many times over: megabytes a second.
const ts = require('./node_typescript');
const source = require('fs').readFileSync(process.argv[2], 'utf8');
const parse = (i) => ts.createSourceFile(`a${i}.ts`, source, ts.ScriptTarget.Latest, false);
for (let i = 0; i < 10; i++) parse(i);
const rounds = 10;
const start = process.hrtime.bigint();
for (let i = 0; i < rounds; i++) parse(i);
const seconds = Number(process.hrtime.bigint() - start) / 1e9;
console.log(`typescript: ${((source.length * rounds) / 1e6 / seconds).toFixed(1)} MB/s`);
