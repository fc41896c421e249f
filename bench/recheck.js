// TypeScript's builder program over the modules of a folder, kept warm: the milliseconds of each edit, files cached by version.
// The edits come as JSON on standard input: {"load": FOLDER, "edits": [{"path", "text"}]}, where no text removes the file.
const fs = require('fs');
const path = require('path');
const ts = require('./node_typescript');
const { load, edits } = JSON.parse(fs.readFileSync(0, 'utf8'));
const options = { strict: true, noEmit: true, target: ts.ScriptTarget.ES2020, lib: ['lib.es2020.d.ts'], skipLibCheck: true };
const files = new Map();
const library = path.dirname(ts.getDefaultLibFilePath(options));
let version = 0;
const put = (name, text) => files.set(name, { text, version: String(++version), file: undefined });
for (const name of fs.readdirSync(load)) put(`/${name}`, fs.readFileSync(path.join(load, name), 'utf8'));
const read = (name) => {
  if (!files.has(name) && name.startsWith(library) && fs.existsSync(name)) put(name, fs.readFileSync(name, 'utf8'));
  return files.get(name);
};
const host = {
  getSourceFile: (name, target) => {
    const row = read(name);
    if (!row) return undefined;
    if (!row.file) {
      row.file = ts.createSourceFile(name, row.text, target, true);
      row.file.version = row.version;
    }
    return row.file;
  },
  fileExists: (name) => read(name) !== undefined,
  readFile: (name) => read(name)?.text,
  directoryExists: () => true,
  getDirectories: () => [],
  getDefaultLibFileName: () => ts.getDefaultLibFilePath(options),
  getDefaultLibLocation: () => library,
  getCurrentDirectory: () => '/',
  getCanonicalFileName: (name) => name,
  useCaseSensitiveFileNames: () => true,
  getNewLine: () => '\n',
  createHash: ts.sys.createHash,
  writeFile: () => {},
};
let builder;
const check = () => {
  const roots = [...files.keys()].filter((name) => !name.startsWith(library));
  const start = process.hrtime.bigint();
  builder = ts.createSemanticDiagnosticsBuilderProgram(roots, options, host, builder);
  let found = builder.getSyntacticDiagnostics().length;
  for (let next; (next = builder.getSemanticDiagnosticsOfNextAffectedFile()); ) found += next.result.length;
  return { ms: Number(process.hrtime.bigint() - start) / 1e6, errors: found };
};
const answers = [check()];
for (const edit of edits) {
  if (edit.text === undefined) files.delete(`/${edit.path}`);
  else put(`/${edit.path}`, edit.text);
  answers.push(check());
}
console.log(JSON.stringify(answers));
