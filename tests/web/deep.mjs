#!/usr/bin/env node
// The whiteboard page over a document far deeper than the rules allow, as only a server that breaks them can tell: the page shows what they allow, and
// says that more lies below:
//     node --experimental-websocket deep.mjs
import { execFileSync } from 'node:child_process';
import { readFileSync } from 'node:fs';
import { createServer } from 'node:http';
import { extname, join } from 'node:path';
import { fileURLToPath } from 'node:url';
import { Browser, until } from './devtools.mjs';
import { endAfter } from './server.mjs';

endAfter(600);
const LEVELS = 20000, SHOWN = 99;                       // those below the page
const page = fileURLToPath(new URL('../../examples/whiteboard/', import.meta.url));
execFileSync(`${page}build`, { stdio: 'ignore' });
const types = { '.html': 'text/html', '.js': 'text/javascript', '.css': 'text/css', '.svg': 'image/svg+xml', '.wasm': 'application/wasm' };

// In place of the page's own a worker without a link, whose client hears of the chain.
const worker = `
import { Client, compile } from './lugcurrant.js';
const client = await Client.load(await compile(fetch('canvas.wasm')));
const rows = ['[[0,0],"document",null,[]]', '[[1,1],"page",[[0,0],"O"],[]]'];
for (let k = 2; k <= ${LEVELS}; k++) rows.push(\`[[1,\${k}],"frame",[[1,\${k - 1}],"O"],[]]\`);
client.receive('["welcome",7]');
client.receive(\`["copy",9,0,[\${rows}]]\`);
const tell = () => postMessage({ told: 'tree', ...client.changed() });
onmessage = ({ data: { edits, token } }) => { for (const [name, ...words] of edits) client[name](...words); tell(); postMessage({ told: 'made', token, ids: [] }); };
tell();
`;
const server = createServer(({ url }, answer) => {
  const [path] = url.split('?'), name = path === '/' ? '/index.html' : path;
  answer.setHeader('content-type', types[extname(name)] ?? 'text/plain');
  try { answer.end(name === '/worker.js' ? worker : readFileSync(join(page, name))); } catch { answer.writeHead(404).end(); }
});
await new Promise((resolve) => server.listen(0, '127.0.0.1', resolve));
const browser = await Browser.start();
let failed = 0;
const check = (name, isRight, seen = '') => { failed += isRight ? 0 : 1; console.log(`${isRight ? 'ok  ' : 'FAIL'} ${name}${isRight ? '' : ` ${seen}`}`); };
try {
  const window = await browser.open(`http://127.0.0.1:${server.address().port}/`);
  // The list is as high as all its rows, and has the rows of those that can be seen.
  const rows = (where) => window.js(`(async () => {
    const list = document.getElementById('list');
    list.parentElement.scrollTop = ${where === 'end' ? 'list.parentElement.scrollHeight' : '0'};
    await new Promise((resolve) => setTimeout(resolve, 100));
    return [...list.children].map((li) => li.dataset.id ?? li.textContent);
  })()`);
  const rowCount = () => window.js("parseFloat(document.getElementById('list').style.height) / document.querySelector('#list li').offsetHeight");
  const groups = () => window.js("document.querySelectorAll('#objects [data-id]').length");
  const what = () => window.js("(({ textContent, title }) => `${textContent} ${title}`)(document.getElementById('what'))");
  const holders = () => window.js("document.querySelectorAll('#into option').length");
  check('the page has heard of all', await until(() => window.js(`window.lugcurrant?.objects.size === ${LEVELS + 1}`), 60), window.faults);
  const begin = await rows('begin'), end = await rows('end');
  check('it lists what the rules allow, and a line', await rowCount() === SHOWN + 1 && begin[0] === '1:2' && end.at(-2) === '1:100' && end.at(-1) === '..and what lies below', `${await rowCount()} rows: ${begin} and ${end}`);
  check('and draws the same', await groups() === SHOWN + 1, await groups());
  await window.js(`document.querySelector('#list [data-id="1:100"]').click()`);
  check('the last that is shown has its panel', await what() === 'Frame 1:100' && await holders() > 90, `${await what()} ${await holders()}`);
  await rows('begin');
  await window.click('#list [data-id="1:2"]');
  check('so has the first', await what() === 'Frame 1:2' && await holders() === 1, `${await what()} ${await holders()}`);
  await window.js("lugcurrant.send(['moveLast', '1:20000', '1:1'])");
  check('what lay too deep is drawn where it is moved up', await until(async () => (await rows('begin'))[0] === '1:20000' && await groups() === SHOWN + 2), await groups());
  await window.js("lugcurrant.send(['delete', '1:50'])");
  check('what is deleted is gone with what lies below', await until(async () => await rowCount() === 49 && await groups() === 50), `${await rowCount()} rows`);
  check('no script has failed', !window.faults.length, window.faults.join('\n'));
} catch (fault) {
  check('the test goes through', false, fault.stack);
} finally {
  await browser.end();
  server.close();
}
process.exit(failed ? 1 : 0);
