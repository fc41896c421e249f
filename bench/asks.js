// TypeScript's language service over the modules of a folder, kept warm: the milliseconds of each question that it has, null for others.
// What is asked comes as JSON on standard input: {"load": FOLDER, "asks": [{"what", "path", ..}]}, as flowd is asked, with the place as
// a number beside the line and the column.
const fs = require('fs');
const path = require('path');
const ts = require('./node_typescript');
const { load, asks } = JSON.parse(fs.readFileSync(0, 'utf8'));
const options = { strict: true, noEmit: true, target: ts.ScriptTarget.ES2020, lib: ['lib.es2020.d.ts'], skipLibCheck: true };
const files = new Map();
let version = 0;
const put = (name, text) => files.set(name, { text, version: String(++version) });
for (const name of fs.readdirSync(load)) put(`/${name}`, fs.readFileSync(path.join(load, name), 'utf8'));
const roots = [...files.keys()];
const read = (name) => {
  if (!files.has(name) && fs.existsSync(name)) put(name, fs.readFileSync(name, 'utf8'));
  return files.get(name);
};
const service = ts.createLanguageService({
  getCompilationSettings: () => options,
  getScriptFileNames: () => roots,
  getScriptVersion: (name) => read(name)?.version ?? '0',
  getScriptSnapshot: (name) => (read(name) ? ts.ScriptSnapshot.fromString(read(name).text) : undefined),
  getCurrentDirectory: () => '/',
  getDefaultLibFileName: () => ts.getDefaultLibFilePath(options),
  fileExists: (name) => read(name) !== undefined,
  readFile: (name) => read(name)?.text,
});
const answers = {
  errors: (name) => service.getSemanticDiagnostics(name),
  'type-at-pos': (name, ask) => service.getQuickInfoAtPosition(name, ask.at),
  'check-contents': (name, ask) => {
    put(name, ask.text);
    return service.getSemanticDiagnostics(name);
  },
  importers: (name) => service.getFileReferences?.(name),
};
const timed = (call) => {
  const start = process.hrtime.bigint();
  const found = call();
  return { found, ms: Number(process.hrtime.bigint() - start) / 1e6 };
};
const first = timed(() => roots.reduce((sum, name) => sum + service.getSemanticDiagnostics(name).length, 0));
const times = asks.map((ask) => {
  if (!answers[ask.what] || !files.has(`/${ask.path}`)) return null;
  const { found, ms } = timed(() => answers[ask.what](`/${ask.path}`, ask));
  return found === undefined ? null : ms;
});
console.log(JSON.stringify({ load: first.ms, errors: first.found, times }));
