#!/usr/bin/env node
// Joins a module and the modules that it imports into one file:  bundle.mjs OUT [ENTRY]
// For a page that has no bundler, as that of `lugcurrant serve --page`, which serves a fixed list of files. ENTRY is a path, or the package itself if
// left out; the module canvas.wasm is beside OUT then. Imports and exports are each a statement of their own at the begin of a line, as they are here.
import { readFileSync, writeFileSync } from 'node:fs';
import { basename, dirname, relative, resolve } from 'node:path';
import { fileURLToPath } from 'node:url';

const IMPORT = /^import (?:\{([^}]*)\} from )?'(\.[^']+)';\n/gm;
const EXPORT_FROM = /^export (?:\{([^}]*)\}|\*) from '(\.[^']+)';\n/gm;
const EXPORT = /^export (const|let|function|class|async function) (\w+)/gm;

const listed = (list) => list.split(',').map((it) => it.trim().split(' as ')).filter(([it]) => it);

// The modules in the order in which they run, each a function that returns what it exports: so two may declare the same name.
class Joined {
  #folder; #modules = new Map(); #under = new Set(); parts = [];

  constructor(folder) { this.#folder = folder; }

  // Adds a module after those that it imports. Returns it: the name of the object of what it exports, and those names.
  add(path) {
    if (this.#modules.has(path)) return this.#modules.get(path);
    if (this.#under.has(path)) throw new Error(`cannot join the modules: ${[...this.#under, path].join(' imports ')}; break the circle`);
    this.#under.add(path);
    const module = { name: `$${relative(this.#folder, path).replace(/\W/g, '_')}`, exported: new Set() }, given = [];
    const from = (other, names = []) => this.#need(path, resolve(dirname(path), other), names);
    const text = readFileSync(path, 'utf8')
      .replace(IMPORT, (line, list = '', other) => {
        const names = listed(list), { name } = from(other, names);
        return names.length ? `const { ${names.map((it) => it.join(': ')).join(', ')} } = ${name};\n` : '';
      })
      .replace(EXPORT_FROM, (line, list, other) => {
        const { name, exported } = from(other, list ? listed(list) : []);
        for (const [it] of list ? listed(list) : [...exported].map((one) => [one])) { module.exported.add(it); given.push(`${it}: ${name}.${it}`); }
        return '';
      })
      .replace(EXPORT, (line, kind, it) => { module.exported.add(it); given.push(it); return `${kind} ${it}`; });
    this.parts.push(`const ${module.name} = (() => {\n${text}\nreturn { ${given.join(', ')} };\n})();`);
    this.#under.delete(path);
    this.#modules.set(path, module);
    return module;
  }

  // Adds a module that another one imports, with these names of it.
  #need(path, other, names) {
    const module = this.add(other), lacking = names.map(([it]) => it).filter((it) => !module.exported.has(it));
    if (lacking.length) throw new Error(`cannot join the modules: ${path} imports ${lacking.join(', ')}, and ${other} has no such export of its own`);
    return module;
  }
}

// Returns the text of one module that exports these names.
export function bundle(entry, about, names = []) {
  const path = resolve(entry), joined = new Joined(dirname(path)), { name } = joined.add(path);
  return `// ${about}, written by packages/js/bundle.mjs.\n${joined.parts.join('\n\n')}\n${names.length ? `\nexport const { ${names.join(', ')} } = ${name};\n` : ''}`;
}

async function run(out, entry) {
  if (!out) { console.error('bundle.mjs OUT [ENTRY]'); process.exit(2); }
  const own = new URL('src/browser.js', import.meta.url), names = entry ? [] : Object.keys(await import(own));
  const text = bundle(entry ?? fileURLToPath(own), entry ? `${basename(entry)} and its modules in one file` : 'The package lugcurrant in one file', names);
  writeFileSync(out, text.replace("new URL('../canvas.wasm', import.meta.url)", "new URL('canvas.wasm', import.meta.url)"));
  console.log(`${out}: ${text.length} characters, ${names.length} names`);
}

if (process.argv[1] === fileURLToPath(import.meta.url)) await run(...process.argv.slice(2));
