// The same in node: node [--experimental-wasm-memory64] stored-node.js REPOSITORY < QUESTION
// A question is {"modules": [base64, ..], "files": [[name, text], ..], "script": [byte, ..]}, and
// its answer a list of what askModule finds of each module.
const fs = require('fs'), vm = require('vm');
const {modules, files, script} = JSON.parse(fs.readFileSync(0, 'utf8'));
const parts = ['site/try/library.js', 'tests/browser/stored.js'];
const text = parts.map((path) => fs.readFileSync(`${process.argv[2]}/${path}`, 'utf8')).join('\n');
const ask = vm.runInThisContext(`(() => { ${text}\nreturn askModule; })()`);
(async () => {
  const found = [];
  for (const module of modules) found.push(await ask(module, files, script));
  fs.writeSync(1, JSON.stringify(found));
})();
