#!/usr/bin/env node
// The calls of the package's client one by one: values, texts, sizes, faults:
//     node library.mjs
import assert from 'node:assert';
import { readFileSync } from 'node:fs';
import { Client, Colour, ROOT, compile, readValue, valueText } from '../../packages/js/src/node.js';
import { endAfter } from './server.mjs';

endAfter(120);
const module = await compile(readFileSync(new URL('../../packages/js/canvas.wasm', import.meta.url)));
const code = (act) => { try { act(); return null; } catch (fault) { return fault.code ?? fault.name; } };
const joined = async () => { const client = await Client.load(module); client.receive('["welcome",7]'); return client; };
const text = (bytes) => new TextDecoder().decode(bytes);
let tried = 0;
const same = (seen, wanted) => { tried += 1; assert.deepStrictEqual(seen, wanted); };

// Before it has an id.
const none = await Client.load(module);
same([none.id, none.version, none.acknowledged, none.waiting, none.askMessage(), none.editMessage(1), [...none.messages()]], [null, 0, 0, 0, null, null, []]);
same(text(none.joinMessage()), '["join",2]');
same(code(() => none.create('page', ROOT)), 'NotOpen');
same(none.text(), '0:0 document\n');

// Ids and versions at their ends.
const last = await Client.load(module);
last.receive('["welcome",4294967294]');
same(last.id, 4294967294);
same(last.receive('["copy",4611686018427387903,0,[[[0,0],"document",null,[]]]]').what, 'took');
same(last.version, 4611686018427387903n);
same(text(last.askMessage()), '["ask",4294967294,4611686018427387903]');
same(last.create('page', ROOT), '4294967294:1');

// Values, both ways.
const client = await joined(), page = client.create('page', ROOT);
const values = [0, -1, 9007199254740991, 9007199254740993n, -(2n ** 63n), 2n ** 63n - 1n, true, false, '', 'a\n"b"\\\u0000\u007f', '\u00e9\u4e2d\u{1f600}', '12345678901234567890',
  new Colour(0), Colour.of('#b4405f'), [], [1, [2n ** 60n, 'x'], new Colour(0xffffffff), [[]]]];
values.forEach((value, k) => client.set(page, `v${k}`, value));
values.forEach((value, k) => same(client.object(page).properties[`v${k}`], value));
for (const value of values) same(readValue(valueText(value)), value);
for (const bad of [1.5, NaN, 2 ** 60, null, undefined, {}, Symbol('x')]) same(code(() => client.set(page, 'bad', bad)), 'TypeError');
same([2n ** 63n, 2n ** 64n].map((value) => code(() => client.set(page, 'bad', value))), ['OutOfRange', 'NotAValue']);
same(code(() => client.set(page, 'bad', '\ud800')), 'NotJson');
const deep = (depth) => depth ? [deep(depth - 1)] : 1;
same([code(() => client.set(page, 'deep', deep(16))), code(() => client.set(page, 'deep', deep(17)))], [null, 'ValueTooDeep']);

// Names, texts that are none, and numbers that are no ids.
same(['', 'x'.repeat(32), 'x'.repeat(33), 'X', '\u00e9', '__proto__'].map((name) => code(() => client.set(page, name, 1))), ['NameEmpty', null, 'NameTooLong', 'NameBadByte', 'NameBadByte', null]);
same([Object.hasOwn(client.object(page).properties, '__proto__'), client.object(page).properties['__proto__']], [true, 1]);
same(code(() => client.setJson(page, 'x', new Uint8Array([34, 255, 34]))), 'NotJson');
for (const [bytes, fault] of [['', 'NotJson'], ['[', 'NotJson'], [new Uint8Array([255]), 'NotJson'], ['["hello"]', 'NotAMessage'], ['["welcome",4294967296]', 'OutOfRange'], ['['.repeat(200), 'NotJson'], ['{}', 'NotAMessage']]) same(code(() => client.receive(bytes)), fault);
for (const id of ['', '1', '1:2:3', 'a:b', '-1:0', '4294967296:1', ' 1:1']) same(code(() => client.delete(id)), 'TypeError');

// What the client refuses.
const frame = client.create('frame', page), shape = client.create('shape', frame), inner = client.create('frame', frame, shape);
same([() => client.create('document', ROOT), () => client.create('page', page), () => client.create('shape', shape), () => client.create('shape', '9:9'), () => client.create('shape', page, shape),
  () => client.move(frame, inner), () => client.move(ROOT, page), () => client.move('9:9', page), () => client.delete(ROOT), () => client.delete('9:9'), () => client.clear('9:9', 'x')].map(code),
['NoKind', 'BadParent', 'BadParent', 'ParentNotShown', 'NotShown', 'OwnDescendant', 'IsRoot', 'NotShown', 'IsRoot', 'NotShown', 'NotShown']);

// The tree, and what has changed.
client.changed();
client.move(shape, page, frame);
same([client.children(page), client.children(frame), client.object(shape).parent, client.tree().children], [[frame, shape], [inner], page, [page]]);
same(client.changed().put.map(({ id }) => id), [page, shape, frame]);
client.delete(frame);
same([client.changed(), client.object(inner), client.children(inner)].map((seen) => seen?.gone ?? seen), [[frame, inner], null, []]);
same(client.changed(), { put: [], gone: [] });

// Places and ends.
const other = client.createLast('page', ROOT), third = client.createFirst('page', ROOT), fourth = client.createAt('page', ROOT, 'zz');
same(client.tree().children, [third, page, other, fourth]);
client.moveLast(page, ROOT);
client.moveFirst(other, ROOT);
client.moveAt(third, ROOT, '~~');
same([client.tree().children, client.object(third).position, client.object(fourth).position], [[other, fourth, page, third], '~~', 'zz']);
same(['', 'a'.repeat(129), 'a\n', '\u00e9', 'a ', 'zz', '~~'].map((position) => code(() => client.createAt('page', ROOT, position))),
  ['PositionEmpty', 'PositionTooLong', 'PositionBadByte', 'PositionBadByte', 'PositionTrailingZero', 'Taken', 'Taken']);
same([code(() => client.moveAt(page, ROOT, 'zz')), code(() => client.createLast('shape', ROOT)), code(() => client.moveFirst(ROOT, page))], ['Taken', 'BadParent', 'IsRoot']);
same([client.isInTree(page), client.isInTree(frame), client.isInTree('9:9')], [true, false, false]);
const many = [];
for (let k = 0; k < 2000; k++) many.push(client.createLast('shape', page));
for (let k = 0; k < 2000; k++) many.unshift(client.createFirst('shape', page));
same(client.children(page).filter((id) => id !== shape).join(), many.join());
for (const id of many) client.delete(id);

// A client that is saved and made again.
const saved = client.save(), again = await Client.load(module, saved);
same([again.id, again.waiting, again.version, again.text(), text(again.save())], [client.id, client.waiting, client.version, client.text(), text(saved)]);
same(again.createLast('page', ROOT), client.createLast('page', ROOT));
client.delete(again.tree().children.at(-1));
for (const [bytes, fault] of [['[', 'NotJson'], ['{}', 'NotAClient'], ['["client",[7,0,0,4611686018427387905],[],[[[0,0],"document",null,[]]]]', 'OutOfRange'],
  ['["client",[null,0,0,0],[["create",[7,1],"page",[[0,0],"O"]]],[[[0,0],"document",null,[]]]]', 'Inconsistent']]) {
  same(await Client.load(module, bytes).then(() => null, (fault) => fault.code), fault);
}

// Texts of all sizes about a page of memory, and a memory that grows in the call.
for (const length of [0, 1, 1000, 65520, 65536, 65537, 1 << 20, 5 << 20]) {
  const long = '\u00e9'.repeat(length / 2) + 'x'.repeat(length % 2);
  client.set(page, 'long', long);
  same(client.object(page).properties.long === long, true);
  same(JSON.parse(text(client.editMessage(client.waiting)))[3][3] === long, true);
}
const count = client.waiting;
same([...client.messages()].length, count);
client.receive(client.editMessage(count).length > 1 << 20 ? '["idle"]' : '');

// A client that was freed answers so.
client.free();
same([code(() => client.create('page', ROOT)), code(() => client.receive('["idle"]')), code(() => client.text()), code(() => client.free()), client.id, client.version], ['NoClient', 'NoClient', 'NoClient', 'NoClient', null, 0]);

// Documents as deep as the rules allow, and as a hostile server can make them: there the tree is read, or the client is lost, and says so.
const chain = (depth) => {
  const rows = ['[[0,0],"document",null,[]]', '[[1,1],"page",[[0,0],"O"],[]]'];
  for (let k = 2; k <= depth; k++) rows.push(`[[1,${k}],"frame",[[1,${k - 1}],"O"],[]]`);
  return `["copy",9,0,[${rows}]]`;
};
const high = await joined(), low = await joined(), lower = await joined();
same([high.receive(chain(100)).what, high.changed().put.length], ['took', 101]);
same(low.receive(chain(6000)).what, 'took');
same([low.text().split('\n').length, low.objects().size, low.changed().put.at(-1).id], [6002, 6001, '1:6000']);
// Of 20,000 levels the tree's text has 400 MB. All else is tried: no call goes deeper with the document.
const bottom = '1:20000', upper = '1:10000';
same([lower.receive(chain(20000)).what, lower.isInTree(bottom), lower.isInTree('1:20001')], ['took', true, false]);
same([() => lower.createLast('shape', bottom), () => lower.createFirst('frame', '1:99'), () => lower.moveLast(upper, bottom), () => lower.move(upper, '1:1')].map(code), ['TooDeep', null, 'OwnDescendant', 'TooDeep']);
lower.set(bottom, 'x', 1);
lower.moveLast(bottom, '1:1');
const kept = lower.save(), loaded = await Client.load(module, kept);
same([loaded.isInTree('1:19999'), text(loaded.save()) === text(kept)], [true, true]);
lower.delete(upper);
same([lower.isInTree('1:19999'), lower.isInTree(bottom)], [false, true]);
const below = Array.from({ length: 19998 }, (_, k) => `[1,${k + 2}]`);
same(loaded.receive(`["entry",10,[5,1,["delete",[1,2]],["removed",[${below}]]]]`).what, 'took');
same([loaded.isInTree('1:2'), loaded.isInTree(bottom), loaded.objects().size], [false, true, 3]);
lower.free();
loaded.free();
console.log(`${tried} answers, all as they should be`);
