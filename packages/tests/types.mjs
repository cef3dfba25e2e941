#!/usr/bin/env node
// The types of the packages for JavaScript and React, by `tsc --strict`: the programs of their READMEs, and lines that must be errors.
// It needs Debian's node-typescript, for React node-react too, or the same in NODE_PATH, and is skipped without them.
import assert from 'node:assert';
import { cpSync, existsSync, mkdirSync, mkdtempSync, readFileSync, rmSync, symlinkSync, writeFileSync } from 'node:fs';
import { createRequire } from 'node:module';
import { tmpdir } from 'node:os';
import { delimiter, dirname, join } from 'node:path';
import { fileURLToPath } from 'node:url';

const places = [...(process.env.NODE_PATH ?? '').split(delimiter), '/usr/share/nodejs'].filter(Boolean);
const folderOf = (name) => places.map((place) => join(place, name)).find((path) => existsSync(path));
if (!folderOf('typescript')) { console.log("skipped: there is no typescript (Debian's node-typescript has it)"); process.exit(0); }
const ts = createRequire(import.meta.url)(folderOf('typescript'));

const packages = fileURLToPath(new URL('..', import.meta.url)), room = mkdtempSync(join(tmpdir(), 'types-')), modules = join(room, 'node_modules');
process.on('exit', () => rmSync(room, { recursive: true, force: true }));
for (const [name, folder] of [['lugcurrant', 'js'], ['lugcurrant-react', 'react']]) {
  for (const it of ['package.json', 'types']) cpSync(join(packages, folder, it), join(modules, name, it), { recursive: true });
}
for (const name of ['react', 'react-dom', '@types/react', '@types/react-dom']) {
  if (!folderOf(name)) continue;
  mkdirSync(dirname(join(modules, name)), { recursive: true });
  symlinkSync(folderOf(name), join(modules, name));
}

// The first block of code of a page that imports something.
const programOf = (page) => /\n\n((?:    .*\n|\n)*    import (?:.*\n)*?)\n(?! {4}|\n)/.exec(readFileSync(join(packages, page), 'utf8'))[1].replace(/^    /gm, '');

// Each line after `@ts-expect-error` must be an error, and no other line is one.
const USES = `
import { Client, Colour, Link, ROOT, VERSION, type CanvasObject, type Signal, type Value } from 'lugcurrant';
const client: Client = await Client.load(), link = new Link(client, new URL('ws://127.0.0.1:1/'), { document: false, mostPause: 10 });
const version: string = VERSION, value: Value = [1, 2n, true, 'a', Colour.of('#b4405f'), [1]];
// @ts-expect-error: there is no such kind
client.createLast('circle', ROOT);
// @ts-expect-error: an object of JavaScript is no value
client.set(ROOT, 'name', { version });
const end: () => void = link.on('refused', ({ number, edit, id, name, words, change }) => console.log(number, edit, id, name, words, change));
link.on('anew', ({ made, lost, unsure, ids }) => console.log(made + lost.length + unsure.length, ids.get(ROOT)));
link.on('unsent', (count: number) => console.log(count));
link.addEventListener('state', ({ detail }) => console.log(detail.state === 'offline', detail.words));
link.addEventListener('change', { handleEvent: ({ detail }) => console.log(detail === true) }, { once: true });
// @ts-expect-error: there is no such event
link.on('nothing', () => {});
// @ts-expect-error: no state of a link
if (link.state === 'away') end();
const one: Signal<CanvasObject | null> = client.signals.object(ROOT), stop: () => void = one.subscribe((object) => console.log(object?.properties.name));
one.addEventListener('changed', ({ detail }) => console.log(detail?.children.length, value));
client.signals.children(ROOT).subscribe(([first]) => console.log(first.length));
client.signals.document.subscribe(({ put, gone }) => console.log(put.map(({ id }) => id), gone));
client.signals.document.value.get(ROOT);
// @ts-expect-error: an object that was read doesn't change
client.object(ROOT)!.kind = 'page';
stop();
`;
const HOOKS = `
import { useChildren, useConnection, useObject } from 'lugcurrant-react';
export function Name({ id }: { id: string }) {
  const name = useObject(id)?.properties.name, { unsent, words } = useConnection(), [first] = useChildren();
  // @ts-expect-error: the id is missing
  useObject();
  return <p>{String(name)}{unsent > 0 && words}{first}</p>;
}
`;
const reacts = ['react', '@types/react'].every(folderOf), files = { 'uses.ts': USES, 'js.ts': programOf('js/README.md'), ...(reacts ? { 'hooks.tsx': HOOKS } : {}) };
for (const [name, text] of Object.entries(files)) writeFileSync(join(room, name), text);
const options = { strict: true, noEmit: true, target: ts.ScriptTarget.ES2022, module: ts.ModuleKind.ES2022, moduleResolution: ts.ModuleResolutionKind.NodeNext, jsx: ts.JsxEmit.ReactJSX, lib: ['lib.es2022.d.ts', 'lib.dom.d.ts', 'lib.dom.iterable.d.ts'], types: [], skipLibCheck: false };
writeFileSync(join(room, 'package.json'), '{"type":"module"}');
const program = ts.createProgram(Object.keys(files).map((name) => join(room, name)), options);
const whereOf = ({ file, start }) => (file ? `${file.fileName.replace(room, '')}:${file.getLineAndCharacterOfPosition(start).line + 1}` : 'options');
const own = ts.getPreEmitDiagnostics(program).filter(({ file }) => !file || file.fileName.startsWith(room));          // Debian's types of React lack csstype
assert.deepEqual(own.map((it) => `${whereOf(it)}: ${ts.flattenDiagnosticMessageText(it.messageText, ' ')}`), []);
console.log(`typescript ${ts.version}: ${Object.keys(files).join(', ')}${reacts ? '' : '; no hooks, as there is no react'}`);
