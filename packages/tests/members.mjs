// Prints as JSON what the packages for JavaScript and React export, and the members of each class, static ones too: for documented.py.
import { readFileSync } from 'node:fs';

const membersOf = (it) => Object.getOwnPropertyNames(it).filter((name) => !['constructor', 'length', 'name', 'prototype'].includes(name));
const isClass = (it) => typeof it === 'function' && String(it).startsWith('class ');
const exportsOf = (module) => Object.fromEntries(Object.entries(module).map(([name, it]) => [name, isClass(it) ? [...membersOf(it), ...membersOf(it.prototype)] : []]));

const js = { ...exportsOf(await import('../js/src/browser.js')), ...exportsOf(await import('../js/src/node.js')) };
// The hooks need React to be loaded, and are functions alone.
const hooks = [...readFileSync(new URL('../react/src/index.js', import.meta.url), 'utf8').matchAll(/^export (?:\w+ )?(?:function|const|class) (\w+)/gm)];
console.log(JSON.stringify({ js, react: Object.fromEntries(hooks.map(([, name]) => [name, []])) }));
